" Descriptions in the PADS language.
autocmd BufNewFile,BufRead *.pads setfiletype pads
