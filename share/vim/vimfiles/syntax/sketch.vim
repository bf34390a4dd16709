" Vim syntax file: Sketch, the language of `sketch synth`
if exists("b:current_syntax")
  finish
endif

syntax case match

syntax match sketchName "\<\h\w*\>"
syntax match sketchFunction "\<\h\w*\>\ze\s*("
syntax keyword sketchType int bit void
syntax keyword sketchModifier harness generator implements ref
syntax keyword sketchStructure struct adt
syntax keyword sketchConditional if else switch
syntax keyword sketchLabel case
syntax keyword sketchRepeat while for repeat minrepeat
syntax keyword sketchStatement return reorder
syntax keyword sketchAsked assert assume minimize
syntax keyword sketchOperator new
syntax keyword sketchPragma pragma
syntax keyword sketchConstant true false null

syntax match sketchNumber "\d\+"
syntax match sketchMark "::\|==\|!=\|<=\|>=\|<<\|>>\|&&\|||\|++\|--\|+=\|-=\|[-+*/%~!&|^<>=?:]"
syntax match sketchPunctuation "[][(){},;.]"
syntax match sketchHole "??"
syntax match sketchPattern "{|\||}"
syntax match sketchString "\"[^\"]*\""
syntax match sketchComment "//.*$" contains=sketchTodo
syntax match sketchResult "//@.*$"
syntax region sketchComment start="/\*" end="\*/" contains=sketchTodo
syntax keyword sketchTodo TODO FIXME XXX contained

highlight default link sketchFunction Function
highlight default link sketchType Type
highlight default link sketchModifier StorageClass
highlight default link sketchStructure Structure
highlight default link sketchConditional Conditional
highlight default link sketchLabel Label
highlight default link sketchRepeat Repeat
highlight default link sketchStatement Statement
highlight default link sketchAsked Statement
highlight default link sketchOperator Operator
highlight default link sketchPragma PreProc
highlight default link sketchConstant Constant
highlight default link sketchNumber Number
highlight default link sketchMark Operator
highlight default link sketchPunctuation Delimiter
highlight default link sketchHole Special
highlight default link sketchPattern Special
highlight default link sketchString String
highlight default link sketchComment Comment
highlight default link sketchResult SpecialComment
highlight default link sketchTodo Todo

let b:current_syntax = "sketch"
