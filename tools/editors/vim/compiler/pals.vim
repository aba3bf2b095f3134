" :compiler pals, then :make MODEL.aadl SCENARIO.json goes to each place that explain and lint name.
if exists("current_compiler")
  finish
endif
let current_compiler = "pals"
CompilerSet makeprg=tools/on_files\ --explain\ check\ $*
CompilerSet errorformat=%f:%l:%c:\ %m,%-G%.%#
