" Vim syntax file
" Language: Systole sources (docs/language.md)

if exists('b:current_syntax')
  finish
endif

syntax case match

" The letters of names are those of ASCII.
syntax iskeyword 65-90,97-122,48-57,_

" A name or a number; a keyword is preferred where the word is one.
syntax match systoleName '[A-Za-z_][A-Za-z0-9_]*'
syntax match systoleNumber '[0-9]\+'
syntax match systoleOperator '==\|!=\|<=\|[<=+*/%-]'
syntax match systoleDelimiter '[{}()\[\];.]'
syntax match systoleComment '#.*$' contains=systoleTodo,@Spell
syntax keyword systoleTodo contained TODO FIXME

syntax keyword systoleDeclaration array queues buffer link message cell var
syntax keyword systoleMessagePart from to route label
syntax keyword systoleStatement write read take emit
syntax keyword systoleRepeat for
syntax keyword systoleConditional if else

" Directions: the letters behind `route`, and the one behind the place of a link. Elsewhere they are names.
syntax match systoleDirection '\%(\<route\%(\_s\+[NESW]\)*\_s\+\)\@<=[NESW]\>'
syntax match systoleDirection '\%(\<link\s\+\d\+\s*\.\s*\d\+\s*\)\@<=[NESW]\>'

highlight default link systoleName Identifier
highlight default link systoleNumber Number
highlight default link systoleOperator Operator
highlight default link systoleDelimiter Delimiter
highlight default link systoleComment Comment
highlight default link systoleTodo Todo
highlight default link systoleDeclaration Keyword
highlight default link systoleMessagePart Label
highlight default link systoleStatement Statement
highlight default link systoleRepeat Repeat
highlight default link systoleConditional Conditional
highlight default link systoleDirection Constant

let b:current_syntax = 'systole'
