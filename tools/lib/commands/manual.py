"""The manual page and the completions of shells, made of docs/commands.txt and the command lines of the tools."""

import glob
import os
import re
import runpy
from typing import NamedTuple

from .command_line import FILES, FOLDERS, CommandLine, flag

HELP = flag("--help", "show the help")
# The words of ./pals that are no commands of the program, each with the tool that they start.
OWN = {"build": None, "help": None, "watch-files": "watch_files"}
# The tool that takes the files of a command, with its options.
ON_FILES = "on_files"
ENDINGS = "aadl|json|pals"


class Tool(NamedTuple):
    """A tool: its name, its command line, and its text."""

    name: str
    line: CommandLine
    text: str


def sections_of(text):
    """The sections of docs/commands.txt: the name and the lines of each, in order."""
    found = []
    for line in text.split("\n"):
        if line.startswith("# "):
            found.append((line[2:], []))
        elif found:
            found[-1][1].append(line)
    return [(name, "\n".join(lines).strip("\n")) for name, lines in found]


def roff(text):
    """A text as troff takes it: no line is a request, and signs are themselves."""
    text = text.replace("\\", "\\e").replace("-", "\\-")
    return "\n".join(f"\\&{line}" if line[:1] in (".", "'") else line for line in text.split("\n"))


def manual(text, version, tools):
    """The manual page, section 1."""
    sections = dict(sections_of(text))
    parts = [f'.TH PALS 1 "" "pals {version}" "User Commands"', ".SH NAME",
             "pals \\- verified compiler and middleware for Multirate PALS", ".SH SYNOPSIS", ".nf",
             roff("pals COMMAND .. < BUNDLE\npals COMMAND [ROOT] MODEL.aadl [SCENARIO.json]\npals TOOL .."), ".fi",
             ".SH DESCRIPTION", ".nf", roff(installed(sections["pals"])), ".fi", ".SH COMMANDS"]
    for name, body in sections.items():
        if name != "pals":
            parts += [f".SS {roff(name)}", ".nf", roff(installed(body)), ".fi"]
    parts.append(".SH TOOLS")
    for it in tools:
        shown = it.line.help(it.name, it.text).replace("tools/", "pals ").rstrip("\n")
        parts += [f".SS {roff(it.name)}", ".nf", roff(installed(shown)), ".fi"]
    return "\n".join(parts) + "\n"


def installed(text):
    """A text in which the program is called as it is when it is installed."""
    return text.replace("./pals", "pals")


def tools_in(folder):
    """The tools in a folder."""
    found = []
    for path in sorted(glob.glob(os.path.join(folder, "*"))):
        name = os.path.basename(path)
        if os.path.isfile(path) and re.fullmatch("[a-z0-9_]+", name):
            names = runpy.run_path(path, run_name=name)
            found.append(Tool(name, names["LINE"], names["__doc__"]))
    return found


def options(text, tools):
    """The options of each command and tool."""
    of_tools = {it.name: [*it.line.options, HELP] for it in tools}
    found = {name: of_tools.get(tool, []) for name, tool in OWN.items()}
    for name, body in sections_of(text):
        word, _, more = name.partition(" ")
        if word != "pals":
            extra = [flag(it, "") for it in re.findall(r"--[a-z]+", f"{more} {body.split(chr(10))[0]}")]
            known = [*found.get(word, of_tools.get(ON_FILES, [])), *extra]
            found[word] = list({it.name: it for it in known}.values())
    return {**of_tools, **found}


def bash(known):
    """The completion of bash."""
    cases = "\n".join(f"    {name}) options='{' '.join(it.name for it in words)}' ;;"
                      for name, words in sorted(known.items()))
    values = "\n".join(f"    '{name} {it.name}') values='{' '.join(it.choices)}' ;;"
                       for name, words in sorted(known.items()) for it in words if it.choices)
    return f"""# Completion of pals for bash.
_pals() {{
    local options values current=${{COMP_WORDS[COMP_CWORD]}}
    COMPREPLY=()
    if [ "$COMP_CWORD" -eq 1 ]; then
        mapfile -t COMPREPLY < <(compgen -W '{' '.join(sorted(known))} --version --program' -- "$current")
        return
    fi
    case ${{COMP_WORDS[1]}} in
{cases}
    esac
    case "${{COMP_WORDS[1]}} ${{COMP_WORDS[COMP_CWORD - 1]}}" in
{values}
    esac
    if [ -n "$values" ]; then
        mapfile -t COMPREPLY < <(compgen -W "$values" -- "$current")
    elif [[ $current == -* ]]; then
        mapfile -t COMPREPLY < <(compgen -W "$options" -- "$current")
    else
        mapfile -t COMPREPLY < <(compgen -f -- "$current" | grep -E '\\.({ENDINGS})$')
    fi
}}
complete -o filenames -o plusdirs -F _pals pals
"""


def quoted(text):
    """A text between quotation marks of a shell."""
    return "'" + text.replace("'", "'\\''") + "'"


def zsh_option(it):
    """An option as `_arguments` of zsh takes it."""
    meaning = re.sub(r"([\[\]:\\])", r"\\\1", it.meaning)
    action = f"({' '.join(it.choices)})" if it.choices else "_files" if it.value in FILES else \
        "_files -/" if it.value in FOLDERS else " "
    value = f":{it.value.replace(':', '')}:{action}" if it.value else ""
    return quoted(f"{'*' * it.repeated}{it.name}[{meaning}]{value}")


def zsh(known):
    """The completion of zsh."""
    files = quoted(f"*:file:_files -g '*.({ENDINGS})'")
    cases = "\n".join(f"    {name}) _arguments {' '.join(map(zsh_option, words))} {files} ;;"
                      for name, words in sorted(known.items()))
    return f"""#compdef pals
# Completion of pals for zsh.
if (( CURRENT == 2 )); then
    compadd -- {' '.join(sorted(known))}
    return
fi
shift words
(( CURRENT-- ))
case $words[1] in
{cases}
esac
"""


def fish_option(name, it):
    """An option of a command in the completion of fish."""
    takes = "" if not it.value else " -r" if it.value in FILES + FOLDERS else " -x"
    choices = f" -a {quoted(' '.join(it.choices))}" if it.choices else ""
    meaning = f" -d {quoted(it.meaning)}" if it.meaning else ""
    return f"complete -c pals -n '__fish_seen_subcommand_from {name}' -l {it.name[2:]}{takes}{choices}{meaning}"


def fish(known):
    """The completion of fish."""
    lines = ["# Completion of pals for fish.",
             f"complete -c pals -n __fish_use_subcommand -f -a '{' '.join(sorted(known))}'"]
    lines += [fish_option(name, it) for name, words in sorted(known.items()) for it in words]
    return "\n".join(lines) + "\n"
