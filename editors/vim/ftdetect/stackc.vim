" Layer files, scripts and plans, and reports and journals of stackc.
autocmd BufRead,BufNewFile *.layers,*.layer setfiletype layers
autocmd BufRead,BufNewFile *.script,*.plan setfiletype stackscript
autocmd BufRead,BufNewFile *.report,*.journal setfiletype stackreport
