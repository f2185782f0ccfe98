autocmd BufRead,BufNewFile *.red,*.redcode setfiletype redcode
