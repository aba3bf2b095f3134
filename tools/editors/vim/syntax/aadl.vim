" AADL with its behaviours, and the scenario of a bundle.
if exists("b:current_syntax")
  finish
endif
syntax case ignore

syntax sync fromstart
syntax keyword aadlStatement package public with end features subcomponents connections properties none
syntax keyword aadlStructure system process thread implementation port data in out
syntax keyword aadlProperty Period Dispatch_Protocol Timing Input_Adaptor Skew Execution Network Initial_Value
syntax keyword aadlWord applies to constant reference classifier
syntax keyword aadlBoolean true false
syntax match aadlNumber "\<\d\+\(\.\d\+\|\(_\d\+\)\+\)\?\>"
syntax match aadlUnit "\(\d\s*\)\@<=\<\(ns\|us\|ms\|sec\|min\|hr\)\>"
syntax match aadlType "\<Base_Types::\(Integer\|Boolean\)\>"
syntax match aadlOperator "+\?=>\|->\|\.\.\|::"
syntax match aadlComment "--.*$"
syntax region aadlString start=+"+ end=+"+ oneline

syntax region aadlAnnex matchgroup=aadlStatement start="\<annex\s\+\w\+\s*{\*\*" end="\*\*}"
syntax region aadlBehaviour matchgroup=aadlStatement start="\<annex\s\+behavior_specification\s*{\*\*" end="\*\*}"
      \ contains=aadlKeyword,aadlState,aadlLogic,aadlWord,aadlBoolean,aadlNumber,aadlType,aadlProperty,aadlSign,aadlComment,aadlString
syntax keyword aadlKeyword contained variables states transitions if elsif else end for in on dispatch otherwise
syntax keyword aadlState contained initial complete state
syntax keyword aadlLogic contained and or xor not then mod rem abs fresh
syntax match aadlSign contained "-\[\|\]->\|:=\|!=\|<=\|>=\|[-+*/=<>!']"

syntax include @Json syntax/json.vim
syntax region aadlScenario matchgroup=aadlStatement start="^%%%$" end="\%$" contains=@Json

highlight default link aadlStatement Statement
highlight default link aadlStructure Structure
highlight default link aadlProperty Identifier
highlight default link aadlWord Keyword
highlight default link aadlBoolean Boolean
highlight default link aadlNumber Number
highlight default link aadlUnit Special
highlight default link aadlType Type
highlight default link aadlOperator Operator
highlight default link aadlComment Comment
highlight default link aadlString String
highlight default link aadlAnnex PreProc
highlight default link aadlKeyword Conditional
highlight default link aadlState StorageClass
highlight default link aadlLogic Operator
highlight default link aadlSign Operator
let b:current_syntax = "aadl"
