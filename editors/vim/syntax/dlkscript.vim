" Vim syntax of the scripts of dlk's sessions: docs/FILES.md. What follows `apply` and a goal is a strategy.
if exists("b:current_syntax")
  finish
endif
runtime! syntax/dlkstrategy.vim
unlet! b:current_syntax

syn match dlkCommand /^\(undo\|show\|save\)$/
syn match dlkCommand /^apply\ze [1-9]/
syn match dlkGoal /\(^apply \)\@<=[1-9]\d*/

hi def link dlkCommand Statement
hi def link dlkGoal Number

let b:current_syntax = "dlkscript"
