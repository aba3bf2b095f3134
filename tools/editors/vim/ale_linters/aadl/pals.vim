" The language server for ALE, in Vim and Neovim. g:pals_command has the words that start it.
call ale#linter#Define('aadl', {
\   'name': 'pals',
\   'lsp': 'stdio',
\   'executable': {buffer -> get(g:, 'pals_command', ['pals', 'language_server'])[0]},
\   'command': {buffer -> join(map(copy(get(g:, 'pals_command', ['pals', 'language_server'])), 'ale#Escape(v:val)'))},
\   'project_root': {buffer -> fnamemodify(bufname(buffer), ':p:h')},
\   'language': 'aadl',
\})
