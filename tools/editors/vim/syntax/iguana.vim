" Syntax of grammars, as docs/NOTATION.md has it.

if exists('b:current_syntax')
  finish
endif

syntax keyword iguanaDeclaration start tabs syntax lexical layout
syntax keyword iguanaAssociativity left right nonassoc
syntax keyword iguanaMark offside ignore align
syntax keyword iguanaBinding when let
syntax keyword iguanaWordOperator and or not div mod
syntax keyword iguanaConstant true false here
syntax keyword iguanaKind int bool span
syntax keyword iguanaReserved return

" The head of a declaration, labels, functions.
syntax match iguanaHead /\%(\<\%(start\|syntax\|lexical\|layout\)\_s\+\)\@<=\K\k*/
syntax match iguanaLabel /\<\K\k*\ze\_s*:/
syntax match iguanaFunction /\<\%(begin\|end\|size\|column\|line\|number\|same\|spells\)\ze(/

syntax match iguanaNumber /\<\%(0\|[1-9][0-9]*\)\>/

" Filters, repetition, separators of alternatives and levels.
syntax match iguanaFilter /!>>\|!<<\|\\/
syntax match iguanaRepetition /[?*+]/
syntax match iguanaSeparator /[|>;=]/
syntax match iguanaComparison /==\|!=\|<=\|>=\|</

" A literal and a class end on their line.
syntax match iguanaBadEscape /\\./ contained
syntax match iguanaEscape /\\["\\nrt]/ contained
syntax match iguanaClassEscape /\\[][^\\nrt-]/ contained
syntax match iguanaNegation /\[\@<=^/ contained
syntax region iguanaLiteral start=/"/ end=/"/ oneline contains=iguanaBadEscape,iguanaEscape
syntax region iguanaClass start=/\[/ skip=/\\./ end=/\]/ oneline contains=iguanaBadEscape,iguanaClassEscape,iguanaNegation
syntax match iguanaClass /\$\%(any\|xid_start\|xid_continue\)\>/

syntax match iguanaComment /\/\/.*/ contains=@Spell

highlight default link iguanaDeclaration Keyword
highlight default link iguanaAssociativity StorageClass
highlight default link iguanaMark StorageClass
highlight default link iguanaBinding Statement
highlight default link iguanaWordOperator Operator
highlight default link iguanaConstant Constant
highlight default link iguanaKind Type
highlight default link iguanaReserved Error
highlight default link iguanaHead Function
highlight default link iguanaLabel Identifier
highlight default link iguanaFunction Function
highlight default link iguanaNumber Number
highlight default link iguanaFilter Special
highlight default link iguanaRepetition Operator
highlight default link iguanaSeparator Operator
highlight default link iguanaComparison Operator
highlight default link iguanaBadEscape Error
highlight default link iguanaEscape SpecialChar
highlight default link iguanaClassEscape SpecialChar
highlight default link iguanaNegation Operator
highlight default link iguanaLiteral String
highlight default link iguanaClass Character
highlight default link iguanaComment Comment

let b:current_syntax = 'iguana'
