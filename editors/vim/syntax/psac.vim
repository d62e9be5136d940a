" Syntax of programs for psac.
if exists('b:current_syntax')
  finish
endif

syn keyword psacStatement let new write read as par call
syn keyword psacConditional if else
syn keyword psacFunction func
syn keyword psacBoolean true false
syn keyword psacNil nil
syn keyword psacGrid rows cols cell
syn keyword psacOperatorWord and or not neg abs min max len pair fst snd

syn match psacName /\<[a-z_][a-z0-9_]*\>/
syn match psacNumber /\<[0-9]\+\>/
syn match psacMark /[{}();,]/
syn match psacOperator /==\|!=\|<=\|>=\|[-+*\/%<>=]/

syn match psacEscape /\\["\\n]/ contained
syn match psacBadEscape /\\[^"\\n]/ contained
syn region psacText start=/"/ skip=/\\["\\]/ end=/"/ oneline contains=psacEscape,psacBadEscape
syn match psacComment /#.*$/ contains=psacTodo
syn keyword psacTodo TODO FIXME contained

hi def link psacStatement Statement
hi def link psacConditional Conditional
hi def link psacFunction Keyword
hi def link psacBoolean Boolean
hi def link psacNil Constant
hi def link psacGrid Function
hi def link psacOperatorWord Operator
hi def link psacNumber Number
hi def link psacMark Delimiter
hi def link psacOperator Operator
hi def link psacText String
hi def link psacEscape SpecialChar
hi def link psacBadEscape Error
hi def link psacComment Comment
hi def link psacTodo Todo

let b:current_syntax = 'psac'
