" Programs that chpc reads (docs/LANGUAGE.md).
if exists("b:current_syntax")
  finish
endif
syntax case match
syntax iskeyword @,48-57,_

" a run of letters, digits and _ that is neither a keyword nor one of the two below is no token
syntax match chpNoToken /\<\w\+\>/
syntax match chpName /\<\a\w\{,23}\>/
syntax match chpNumber /\<\%(\d\+\|0x\x\{1,16}\)\>/
syntax keyword chpDeclaration in out chan var proc
syntax keyword chpStatement begin end skip call

syntax match chpSign /[;,:(){}[\]]/
syntax match chpOperator /[~&|^+=<>-]/
syntax match chpOperator /!=\|<=\|>=/
syntax match chpCommunication /!\ze[^=]\|!$\|?/
syntax match chpControl /||\|\[\]\|->\|\*\|:=/
" refused: probes and arbiters
syntax match chpNoToken /#\|\[|/
syntax match chpComment /\/\/.*$/

highlight default link chpNoToken Error
highlight default link chpName Identifier
highlight default link chpNumber Number
highlight default link chpDeclaration Type
highlight default link chpStatement Statement
highlight default link chpSign Delimiter
highlight default link chpOperator Operator
highlight default link chpCommunication Special
highlight default link chpControl Keyword
highlight default link chpComment Comment
let b:current_syntax = "chp"
