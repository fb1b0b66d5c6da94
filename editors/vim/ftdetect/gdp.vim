autocmd BufNewFile,BufRead *.gdp setfiletype gdp
