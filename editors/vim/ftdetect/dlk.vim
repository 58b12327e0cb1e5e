" Models, strategies, terms and scripts of dlk. They have no ending of their own: those below a folder `examples` are known by their names, and
" everywhere those that end in .dlkmodel, .dlkstrategy, .dlkterm or .dlkscript. In a model or a strategy a comment may say it, too:
"     /* vim: set filetype=dlkmodel : */
autocmd BufRead,BufNewFile *.dlkmodel,*/examples/*/model,*/examples/models/* setfiletype dlkmodel
autocmd BufRead,BufNewFile *.dlkstrategy,*/examples/*/strategy setfiletype dlkstrategy
autocmd BufRead,BufNewFile *.dlkterm,*/examples/*/term setfiletype dlkterm
autocmd BufRead,BufNewFile *.dlkscript,*/examples/*/script setfiletype dlkscript
