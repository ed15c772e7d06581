" Vim syntax file
" Language: XDuce, programs and documents

if exists('b:current_syntax')
  finish
endif

let s:save = &cpoptions
set cpoptions&vim

syntax case match

" `^` before a class or a text, `~` for every label, and what binds or divides
syntax match xduceOperator "[|*+?=:^,]"
syntax match xduceAny "\~\ze\["
syntax match xduceArrow "->"
syntax match xduceEmpty "()"

" A word directly followed by `[` is a label, a keyword too. `\<` keeps a name's end from being taken for one.
syntax match xduceLabel "\<\h\w*\ze\["
syntax match xduceName "\<\h\w*\>\[\@!"
syntax match xducePredefined "\<\%(String\|Any\)\>\[\@!"
syntax match xduceKeyword "\<\%(type\|fun\|val\|as\|match\|with\)\>\[\@!"

" A list of labels: (a|b)[ and ^(a|b)[
syntax match xduceClass "(\_s*\h\w*\%(\_s*|\_s*\h\w*\)*\_s*)\ze\_s*\[" contains=xduceListed,xduceOperator
syntax match xduceListed "\h\w*" contained

" The name that is defined, and the variable that is bound. Only blanks may stand between.
syntax match xduceDefined "\%(\<type\_s\+\)\@<=\h\w*"
syntax match xduceFunction "\%(\<fun\_s\+\)\@<=\h\w*"
syntax match xduceVariable "\%(\<val\_s\+\)\@<=\h\w*"

syntax region xduceText start=+"+ skip=+\\\\\|\\"+ end=+"+ contains=xduceEscape,xduceBadEscape,@Spell
syntax match xduceBadEscape "\\." contained
syntax match xduceEscape +\\["\\nt]+ contained

" Comments don't nest: the first `*)` ends one.
syntax region xduceComment start="(\*" end="\*)" contains=xduceTodo,@Spell
syntax keyword xduceTodo TODO FIXME XXX contained

syntax sync minlines=200

highlight default link xduceKeyword Keyword
highlight default link xducePredefined Type
highlight default link xduceName Identifier
highlight default link xduceDefined Typedef
highlight default link xduceFunction Function
highlight default link xduceVariable Identifier
highlight default link xduceLabel Tag
highlight default link xduceListed Tag
highlight default link xduceAny Special
highlight default link xduceEmpty Constant
highlight default link xduceOperator Operator
highlight default link xduceArrow Operator
highlight default link xduceText String
highlight default link xduceEscape SpecialChar
highlight default link xduceBadEscape Error
highlight default link xduceComment Comment
highlight default link xduceTodo Todo

let b:current_syntax = 'xduce'

let &cpoptions = s:save
unlet s:save
