" Theories, scripts, programs, derivations and inputs of kids. docs/REFERENCE.md has the rules of text, names and numbers.
if exists('b:current_syntax')
  finish
endif

syntax case match
" a word is a row of visible bytes without brackets and semicolons
syntax iskeyword 33-39,42-58,60-126

" Of matches that begin at one place the last one here counts, and keywords before all of them.

" words that are neither names nor numbers, and reserved words apart
syntax match kidsBadWord "[!-'*-:<-~]\+"
syntax match kidsName "\<[a-z][a-z0-9-]\{,31}\>"
syntax match kidsBadNumber "\<[-+]\=\d\+\>"
syntax match kidsNumber "\<\%(0\|-\=[1-9]\d*\)\>"

" a tag is an apostrophe and a name
syntax match kidsTag "'[a-z][a-z0-9-]\{,31}\>"

" forms of theories, programs, scripts and derivations
syntax keyword kidsForm def theory input output axiom law nextgroup=kidsDeclared skipwhite skipempty
syntax keyword kidsForm require given equal holds ensure program main search match by
syntax match kidsDeclared contained "\<[a-z][a-z0-9-]\{,31}\>"

" statements
syntax keyword kidsStatement let nextgroup=kidsBound skipwhite skipempty
syntax keyword kidsStatement emit call
syntax keyword kidsRepeat for nextgroup=kidsBound skipwhite skipempty
syntax match kidsBound contained "\<[a-z][a-z0-9-]\{,31}\>"

" operators; `if` is a statement too
syntax keyword kidsConditional if
syntax keyword kidsOperator not and or implies eq le lt add sub neg mul div mod min max
syntax keyword kidsOperator fst snd range in subset union with inter diff without card sum least
syntax keyword kidsOperator len snoc rest items total prefix
syntax keyword kidsOperator dom ran get put drop fill submap fits narrow cast
syntax keyword kidsOperator wenc wdec wor wand wnot wcard win wleast renc rdec rget rput rdrop
syntax keyword kidsBinder all some setof image sumof nextgroup=kidsBound skipwhite skipempty
syntax match kidsOperator "\<\%(pair\|set\|seq\|map\|at\)\>"

" a name and a sort in brackets are a parameter: from there on first members lead down to `bool` or `int`
syntax match kidsParameter "(\@1<=[a-z][a-z0-9-]\{,31}\>\ze\_s\+\%((\_s*\%(pair\|set\|seq\|map\)\_s\+\)*\%(bool\>\|(\_s*\%(int\|enum\)\>\)"

" sorts; of the words that are operators too, those from which first members lead down as well
syntax keyword kidsSort bool int
syntax match kidsSort "\<\%(pair\|set\|seq\|map\)\>\ze\_s\+\%((\_s*\%(pair\|set\|seq\|map\)\_s\+\)*\%(bool\>\|(\_s*\%(int\|enum\)\>\)"

" words with a meaning at the head of a form or a sort alone
syntax match kidsForm "(\@1<=first\>\ze\_s\+\d\+\_s*)"
syntax match kidsSort "(\@1<=enum\>"

syntax keyword kidsBoolean true false

" the proof of a law: moves, lines, where `at` is followed by a path, and rules
syntax keyword kidsMove left right join again have copy back
syntax match kidsMove "(\@1<=at\>\ze\_s*(\_s*\%(\d\|)\)"
syntax keyword kidsRule unfold fold compute use fails uncast
syntax match kidsRule "\<[bem]\d\+\>"

" reserved, and without a use in the files that are built today
syntax keyword kidsReserved filter cut simplify maintain refine normal closure want

syntax region kidsList matchgroup=kidsBracket start="(" end=")" fold
  \ contains=ALLBUT,kidsBadBracket,kidsDeclared,kidsBound
syntax match kidsBadBracket ")"

" bytes that no file may have, also in a comment
syntax match kidsBadByte "[^\t\r -~]"
syntax match kidsComment ";.*" contains=kidsBadByte

syntax sync fromstart

highlight default link kidsBadWord Error
highlight default link kidsBadNumber Error
highlight default link kidsBadBracket Error
highlight default link kidsBadByte Error
highlight default link kidsNumber Number
highlight default link kidsTag Constant
highlight default link kidsForm Keyword
highlight default link kidsDeclared Function
highlight default link kidsBound Identifier
highlight default link kidsParameter Identifier
highlight default link kidsStatement Statement
highlight default link kidsRepeat Repeat
highlight default link kidsConditional Conditional
highlight default link kidsOperator Operator
highlight default link kidsBinder Operator
highlight default link kidsSort Type
highlight default link kidsBoolean Boolean
highlight default link kidsMove Statement
highlight default link kidsRule Special
highlight default link kidsReserved PreProc
highlight default link kidsBracket Delimiter
highlight default link kidsComment Comment

let b:current_syntax = 'kids'
