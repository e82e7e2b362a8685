if exists("b:current_syntax")
  finish
endif
syntax keyword sectStructure record global proc thread protected_by
syntax keyword sectSection atomic all
syntax keyword sectConditional if else
syntax keyword sectRepeat while
syntax keyword sectStatement new print call
syntax keyword sectType int
syntax keyword sectConstant null
syntax keyword sectReserved class
syntax match sectNumber /\<\(0\|[1-9]\d*\)\>/
syntax match sectOperator /[=+*<-]\|[=!<]=/
syntax match sectComment /\/\/.*$/
highlight default link sectStructure Structure
highlight default link sectSection Keyword
highlight default link sectConditional Conditional
highlight default link sectRepeat Repeat
highlight default link sectStatement Statement
highlight default link sectType Type
highlight default link sectConstant Constant
highlight default link sectReserved Error
highlight default link sectNumber Number
highlight default link sectOperator Operator
highlight default link sectComment Comment
let b:current_syntax = "sect"
