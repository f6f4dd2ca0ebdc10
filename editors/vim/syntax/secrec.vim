" Syntax of SecreC programs, as docs/language.md has it.
if exists('b:current_syntax')
  finish
endif
syntax case match

syntax keyword secrecConditional if else
syntax keyword secrecRepeat while do for break continue
syntax keyword secrecStatement return assert
syntax keyword secrecInclude import
syntax keyword secrecStructure kind domain template
syntax keyword secrecType void uint64 uint int64 int bool
syntax keyword secrecStorage public
syntax keyword secrecBoolean true false
syntax keyword secrecBoundary argument publish declassify
syntax keyword secrecBuiltin size cat sum bitExtract lookup
syntax keyword secrecTodo contained TODO FIXME XXX

" (of several matches at one place the last one counts)
syntax match secrecOperator "[-=+*/%&|^!<>]"
syntax match secrecDelimiter "[][(){},;:]"
syntax match secrecError "[^][(){},;:=+*/%&|^!<>A-Za-z0-9_"[:space:]-]"
syntax match secrecError "\<\d\w*"
syntax match secrecNumber "\<\%(\d\+\|0x\x\+\)\>"
syntax match secrecError "\"[A-Za-z0-9_]*"
syntax match secrecString "\"\w\{1,64}\""
syntax match secrecComment "//.*$" contains=secrecTodo,@Spell
syntax region secrecComment start="/\*" end="\*/" contains=secrecTodo,@Spell

syntax sync ccomment secrecComment

highlight default link secrecConditional Conditional
highlight default link secrecRepeat Repeat
highlight default link secrecStatement Statement
highlight default link secrecInclude Include
highlight default link secrecStructure Structure
highlight default link secrecType Type
highlight default link secrecStorage StorageClass
highlight default link secrecBoolean Boolean
highlight default link secrecBoundary Special
highlight default link secrecBuiltin Function
highlight default link secrecOperator Operator
highlight default link secrecDelimiter Delimiter
highlight default link secrecNumber Number
highlight default link secrecString String
highlight default link secrecComment Comment
highlight default link secrecTodo Todo
highlight default link secrecError Error

let b:current_syntax = 'secrec'
