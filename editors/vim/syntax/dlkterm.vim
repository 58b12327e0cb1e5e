" Vim syntax of the term files of dlk, of both versions: docs/FILES.md, and docs/CALCULUS.md for the names. What follows the head of a line is a
" sequent, a formula or a substitution, in the language of models, or in version 2 by the numbers of nodes.
if exists("b:current_syntax")
  finish
endif
runtime! syntax/dlkmodel.vim
unlet! b:current_syntax

syn match dlkLine /^[1-9]\d*\ze / nextgroup=dlkStep skipwhite
syn match dlkDone /^done$/
syn match dlkHead /\%1ldlk 2$/
syn match dlkNodeLine /^node\ze [1-9]/ nextgroup=dlkNodeNumber skipwhite
syn match dlkNodeNumber /[1-9]\d*/ contained nextgroup=dlkNode skipwhite
syn match dlkNamedNode /#[1-9]\d*/
syn keyword dlkStep contained start leaf
syn keyword dlkStep contained apply nextgroup=dlkGoal skipwhite
syn keyword dlkStep contained merge subst rename nextgroup=dlkFact skipwhite
syn keyword dlkStep contained axiom nextgroup=dlkAxiom skipwhite
syn keyword dlkStep contained rule nextgroup=dlkAxiomaticRule skipwhite
syn match dlkFact /[1-9]\d*\( [1-9]\d*\)*/ contained
syn match dlkGoal /[1-9]\d* [1-9]\d*/ contained nextgroup=dlkRule skipwhite

" The words of nodes
syn keyword dlkNode contained var num dot ufun app neg diff add sub mul div pow true false hole upred holds eq ne ge gt le lt
syn keyword dlkNode contained quant not difff forall exists and or imply equiv box dia const assign any test system choice seq
syn keyword dlkNode contained loop

" The rules of a sequent
syn keyword dlkRule contained closeFalse notL andL orL implyL equivL hideL skolemL commuteEquivL closeTrue notR andR orR
syn keyword dlkRule contained implyR equivR hideR coHideR skolemR equivifyR commuteEquivR close exchangeL exchangeR boundL
syn keyword dlkRule contained boundR cutL cutR cut

" The axioms
syn keyword dlkAxiom contained diamond assignb assigneq selfassign dassignb randomb testb choiceb composeb iterateb K I V DW
syn keyword dlkAxiom contained DWeq DC DE DEsys ODEswap DI DG DS Dconst Dvar Dplus Dminus Dneg Dtimes Dquot Dpow Deq Dne Dge
syn keyword dlkAxiom contained Dgt Dle Dlt Dand Dor Dimply Dforall allinst existsdual alldist allvac eqrefl eqcongr

" The axiomatic rules
syn keyword dlkAxiomaticRule contained G allgen mon CT CQ CE

hi def link dlkLine LineNr
hi def link dlkDone Statement
hi def link dlkHead Statement
hi def link dlkNodeLine Statement
hi def link dlkNodeNumber LineNr
hi def link dlkNode Type
hi def link dlkNamedNode Number
hi def link dlkStep Statement
hi def link dlkFact Number
hi def link dlkGoal Number
hi def link dlkRule Function
hi def link dlkAxiom Identifier
hi def link dlkAxiomaticRule Identifier

let b:current_syntax = "dlkterm"
