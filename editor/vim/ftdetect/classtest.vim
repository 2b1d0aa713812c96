" Charts, cuts, words, tables and suites of classtest, by the ends of their names.
autocmd BufRead,BufNewFile *.chart,*.cuts,*.table,*.suite setfiletype classtest
