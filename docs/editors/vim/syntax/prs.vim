" Rule files of chpc (docs/FORMATS.md).
if exists("b:current_syntax")
  finish
endif
syntax case match
syntax iskeyword @,48-57,_,.

syntax match prsName /\<\a[A-Za-z0-9_.]\{,31}\>/
syntax match prsNumber /\<\d\+\>/
syntax match prsOperator / [&|] \|\~/
syntax match prsArrow /->/
syntax match prsRaises /+$/
syntax match prsLowers /-$/
syntax match prsLine /^\%(prs\|node\|in\|out\|chan\|rule\)\ze /

highlight default link prsName Identifier
highlight default link prsNumber Number
highlight default link prsOperator Operator
highlight default link prsArrow Keyword
highlight default link prsRaises Special
highlight default link prsLowers Special
highlight default link prsLine Statement
let b:current_syntax = "prs"
