" Vim syntax of the models of dlk: docs/LANGUAGE.md. Substitutions are written in it, too.
if exists("b:current_syntax")
  finish
endif

" Two operators that begin alike: the longer one stands first.
syn match dlkOperator "<->\|==>\|->\|:=\|++\|>=\|<=\|!=\|\~>\|\~\~\|[=<>&|!+*/^'?;,-]"
syn match dlkBracket /[][(){}]/
syn match dlkBracket /(||)\|(|\||)\|{|\||}/
syn match dlkNumber /\<\d\+\(\.\d\+\)\?/
syn match dlkName /\<\a\w*/
syn match dlkPrimed /\<\a\w*'/
syn match dlkHole /\<_\>/
syn match dlkDot /\._[0-7]/
syn keyword dlkConstant true false
syn match dlkKeyword /\\forall\|\\exists\|@invariant/
syn match dlkFunctionWord /\<term\>\ze\s\+\a/
syn region dlkComment start="/\*" end="\*/"
syn match dlkComment "//.*$"

hi def link dlkOperator Operator
hi def link dlkBracket Delimiter
hi def link dlkNumber Number
hi def link dlkPrimed Special
hi def link dlkHole Special
hi def link dlkDot Special
hi def link dlkConstant Boolean
hi def link dlkKeyword Keyword
hi def link dlkFunctionWord Keyword
hi def link dlkComment Comment

let b:current_syntax = "dlkmodel"
