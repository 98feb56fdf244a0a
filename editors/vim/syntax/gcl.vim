" Vim syntax of cpGCL, as zar reads it.
if exists("b:current_syntax")
  finish
endif

syntax case match
syntax match gclName "[A-Za-z_]\w*"
syntax match gclNumber "\d\+"
syntax match gclSymbol ":=\|!=\|<=\|>=\|[~;{}()+*/%=<>:|-]"
syntax match gclComment "#.*"
syntax keyword gclStatement skip observe return
syntax keyword gclConditional if else choice choose or
syntax keyword gclRepeat while
syntax keyword gclLogic and not
syntax keyword gclTruth true false
syntax keyword gclDraw uniform

highlight default link gclName Identifier
highlight default link gclNumber Number
highlight default link gclSymbol Operator
highlight default link gclComment Comment
highlight default link gclStatement Statement
highlight default link gclConditional Conditional
highlight default link gclRepeat Repeat
highlight default link gclLogic Operator
highlight default link gclTruth Boolean
highlight default link gclDraw Function

let b:current_syntax = "gcl"
