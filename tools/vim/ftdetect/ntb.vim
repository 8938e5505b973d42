autocmd BufRead,BufNewFile *.ntb setfiletype ntb
