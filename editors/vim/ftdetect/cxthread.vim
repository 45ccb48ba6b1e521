" Made by tools/grammar.
autocmd BufRead,BufNewFile *.cx,*.replay,*.record setfiletype cxthread
