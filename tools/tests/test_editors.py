"""The settings of editors: each editor that is installed shows the errors of the language server."""

import json
import os
import shutil
import subprocess
import sys
import tempfile

from lib.scenarios.bundles import read
from tests.common import HERE, WITHIN, Skipped, expect, page

EDITORS = os.path.join(HERE, "editors")
SERVER = [sys.executable, os.path.join(HERE, "language_server")]
ALE = "/usr/share/vim-ale"
# A design with one unknown name, in line 19, column 43.
WRONG = page("examples/two_counters.aadl").replace("o!(x)", "o!(xx)", 1)
NEOVIM = """vim.g.pals_command = {{ "{0}", "{1}" }}
vim.opt.runtimepath:prepend("{editors}/vim")
vim.cmd("filetype plugin on")
vim.cmd("edit {design}")
vim.wait(60000, function() return #vim.diagnostic.get(0) > 0 end, 50)
local lines = {{}}
for _, it in ipairs(vim.diagnostic.get(0)) do
  table.insert(lines, (it.lnum + 1) .. ":" .. (it.col + 1) .. " " .. it.message:match("[^\\n]*"))
end
vim.fn.writefile(lines, "{written}")
vim.cmd("qa!")
"""
VIM = """set nocompatible
set rtp^={editors}/vim
set rtp+={ale}
let g:pals_command = ['{0}', '{1}']
let g:ale_linters = {{'aadl': ['pals']}}
runtime plugin/ale.vim
filetype plugin on
edit {design}
call ale#Queue(0, 'lint_file')
let turns = 0
while empty(ale#engine#GetLoclist(bufnr(''))) && turns < 600
  sleep 100m
  let turns += 1
endwhile
let lines = map(copy(ale#engine#GetLoclist(bufnr(''))), 'v:val.lnum . ":" . v:val.col . " " . v:val.text')
call writefile(lines, '{written}')
qa!
"""
EMACS = """(package-initialize)
(load "{editors}/emacs/pals.el")
(setq pals-command '("{0}" "{1}") eglot-sync-connect t eglot-autoshutdown t)
(find-file "{design}")
(unless (eglot-current-server) (call-interactively #'eglot))
(flymake-mode 1)
(let ((turns 0))
  (while (and (< turns 600) (null (flymake-diagnostics)))
    (accept-process-output nil 0.1)
    (setq turns (1+ turns))))
(let ((lines (mapcar (lambda (it)
                       (goto-char (flymake-diagnostic-beg it))
                       (format "%d:%d %s" (line-number-at-pos) (1+ (current-column)) (flymake-diagnostic-text it)))
                     (flymake-diagnostics))))
  (write-region (string-join lines "\\n") nil "{written}"))
(kill-emacs 0)
"""


def shown(name, text, *words):
    """What an editor writes of a design that it shows, by a script of settings."""
    with tempfile.TemporaryDirectory() as folder:
        design, written = os.path.join(folder, "wrong.aadl"), os.path.join(folder, "written")
        path = os.path.join(folder, name)
        for at, content in ((design, WRONG), (path, text.format(*SERVER, editors=EDITORS, design=design, ale=ALE,
                                                                written=written))):
            with open(at, "w", encoding="utf-8") as file:
                file.write(content)
        env = {**os.environ, "HOME": folder, "XDG_CONFIG_HOME": folder, "XDG_DATA_HOME": folder}
        ran = subprocess.run([*words, path], stdin=subprocess.DEVNULL, stdout=subprocess.PIPE,
                             stderr=subprocess.STDOUT, timeout=WITHIN, env=env, check=False)
        expect(os.path.exists(written), True, f"{words[0]} writes: {ran.stdout.decode('utf-8', 'replace')}")
        return read(written).decode()


def needs(command, package=None):
    """Leaves a test out if a command is not installed."""
    if not shutil.which(command):
        raise Skipped(f"{package or command} is not installed")


def test_neovim():
    """Neovim shows the error of the server."""
    needs("nvim", "neovim")
    found = shown("settings.lua", NEOVIM, "nvim", "--headless", "-u", "NONE", "-S")
    expect(found.strip(), "19:43 unknown variable or port xx", "errors in Neovim")


def test_vim_with_ale():
    """Vim with ALE shows the error of the server."""
    needs("vim")
    if not os.path.isdir(ALE):
        raise Skipped("vim-ale is not installed")
    found = shown("settings.vim", VIM, "vim", "-i", "NONE", "-es", "-T", "dumb", "-u")
    expect(found.startswith("19:43 unknown variable or port xx"), True, f"errors in Vim: {found}")


def test_emacs_with_eglot():
    """Emacs with eglot shows the error of the server."""
    needs("emacs")
    has = ["emacs", "--batch", "--eval", "(progn (package-initialize) (require 'eglot))"]
    if subprocess.run(has, stdout=subprocess.DEVNULL, stderr=subprocess.DEVNULL, check=False).returncode:
        raise Skipped("eglot is not installed (Debian: elpa-eglot)")
    found = shown("settings.el", EMACS, "emacs", "--batch", "-l")
    expect("19:43 " in found and "unknown variable or port xx" in found, True, f"errors in Emacs: {found}")


def test_vscode():
    """In a model of VS Code the extension has the commands of its package, and passes each answer of the server."""
    needs("node", "nodejs")
    package = json.loads(read(os.path.join(EDITORS, "vscode", "package.json")))
    with tempfile.TemporaryDirectory() as folder:
        design = os.path.join(folder, "wrong.aadl")
        with open(design, "w", encoding="utf-8") as file:
            file.write(WRONG)
        words = ["node", os.path.join(HERE, "tests", "vscode.js"), os.path.join(EDITORS, "vscode"), design, *SERVER]
        ran = subprocess.run(words, stdout=subprocess.PIPE, stderr=subprocess.PIPE, timeout=WITHIN, check=False)
        expect(ran.returncode, 0, ran.stderr.decode("utf-8", "replace"))
        found = json.loads(ran.stdout)
    expect(found["commands"], sorted(it["command"] for it in package["contributes"]["commands"]), "commands")
    wanted = {"diagnostics": [[18, "unknown variable or port xx", 0]], "fix": [[{"line": 18, "newText": "x"}]],
              "symbols": ["Counter", "Counter.impl", "Pair", "Pair.impl", "Top", "Top.impl"], "labels": True,
              "definition": 14, "references": 3, "renamed": [4, 10, 11, 20, 25, 26], "messages": [],
              "refused": "`end` is not a name of the language", "prepared": {"line": 4, "character": 7},
              "task": [[sys.executable, ["check", design], "$pals"]]}
    expect({name: found[name] for name in wanted}, wanted, "answers")
    expect("minimum period by the bound: 9 ms" in found["hover"] and found["foldings"] > 5, True, f"{found}")
