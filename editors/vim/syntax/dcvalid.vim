" Formula files of dcvalid, and sources for ./ask expand.
if exists("b:current_syntax")
  finish
endif
syn keyword dcStatement var define prop as infer const use
syn keyword dcQuantifier ex all
syn keyword dcConstant true false pt ext
syn keyword dcCount slen scount sdur
syn match dcNumber /\<[0-9]\+\>/
syn match dcOperator /<=>\|=>\|||\|&&\|<=\|>=\|<>\|\[\]\|\^\|\*\|!\|=/
syn match dcBracket /\[\[\|\]\]\|{{\|}}\|[][<>()]/
syn match dcMacro /\(\<\(define\|prop\)\s\+\)\@<=[A-Za-z][A-Za-z0-9_]*/
syn match dcQuantified /\(\<\(ex\|all\)\s\+\)\@<=[A-Za-z][A-Za-z0-9_]*/
syn region dcFile start=/"/ end=/"/ oneline
syn match dcComment "//.*$" contains=@Spell
hi def link dcStatement Statement
hi def link dcQuantifier Keyword
hi def link dcConstant Constant
hi def link dcCount Function
hi def link dcNumber Number
hi def link dcOperator Operator
hi def link dcBracket Delimiter
hi def link dcMacro Identifier
hi def link dcQuantified Identifier
hi def link dcFile String
hi def link dcComment Comment
setlocal commentstring=//\ %s
let b:current_syntax = "dcvalid"
