autocmd BufRead,BufNewFile *.ctd setfiletype checktestdata
