autocmd BufRead,BufNewFile *.kpn setfiletype kpn
