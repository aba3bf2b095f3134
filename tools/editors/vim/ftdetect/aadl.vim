" Designs and bundles.
autocmd BufRead,BufNewFile *.aadl,*.pals setfiletype aadl
