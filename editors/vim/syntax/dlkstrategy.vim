" Vim syntax of the strategies of dlk: docs/STRATEGIES.md. A text in quotes is in the language of models.
if exists("b:current_syntax")
  finish
endif
syn include @dlkTokens syntax/dlkmodel.vim
unlet! b:current_syntax

syn match dlkPlace /-\?\<\d\+\(\.\d\+\)*/
syn match dlkRepeat /\*\s*\d\+/
syn match dlkJoin /[;|]\|<(/
syn match dlkLocator /'[LR]\>/
syn region dlkQuoted start=/"/ end=/"/ contains=@dlkTokens
syn region dlkRemark start="/\*" end="\*/"

" What isn't a rule of a sequent
syn keyword dlkAtom nil leaf G boxCut derive
syn keyword dlkAtom useAt useBack nextgroup=dlkUse skipwhite skipempty
syn match dlkUse /(/ contained nextgroup=dlkAxiom skipwhite skipempty

" The names of the library
syn keyword dlkLibrary loop dW dC dI dG step prop

" The rules of a sequent
syn keyword dlkRule closeFalse notL andL orL implyL equivL hideL skolemL commuteEquivL closeTrue notR andR orR
syn keyword dlkRule implyR equivR hideR coHideR skolemR equivifyR commuteEquivR close exchangeL exchangeR boundL
syn keyword dlkRule boundR cutL cutR cut

" The axioms
syn keyword dlkAxiom contained diamond assignb assigneq selfassign dassignb randomb testb choiceb composeb iterateb K I V DW
syn keyword dlkAxiom contained DWeq DC DE DEsys ODEswap DI DG DS Dconst Dvar Dplus Dminus Dneg Dtimes Dquot Dpow Deq Dne Dge
syn keyword dlkAxiom contained Dgt Dle Dlt Dand Dor Dimply Dforall allinst existsdual alldist allvac eqrefl eqcongr

hi def link dlkPlace Number
hi def link dlkRepeat Repeat
hi def link dlkJoin Operator
hi def link dlkLocator Special
hi def link dlkQuoted String
hi def link dlkRemark Comment
hi def link dlkAtom Statement
hi def link dlkLibrary Macro
hi def link dlkRule Function
hi def link dlkAxiom Identifier

let b:current_syntax = "dlkstrategy"
