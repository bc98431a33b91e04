autocmd BufNewFile,BufRead *.dc setfiletype dcvalid
