" Vim syntax file
" Language: score texts of formula
if exists("b:current_syntax")
  finish
endif
syntax case match
syntax iskeyword @,48-57,_

" what nothing else knows begins no token
syntax match formulaError /[^ \t\r\n]/
syntax match formulaName /\<[a-z][a-z0-9_]*\>/
syntax match formulaPitch /\<[a-g][sb]\=[0-9]\>/
syntax match formulaRegister /\<r[0-7]\>/
syntax match formulaIndex /\<n\([0-9]\|1[0-5]\)\>/
syntax match formulaNumber /\<[0-9]\{1,9}\>/
syntax match formulaSymbol /[;{}()\[\],=\/+*%-]/
syntax keyword formulaHead formula seed
syntax match formulaHead /\<division\>\ze[ \t\r\n]\+[0-9]/
syntax keyword formulaDefinition shape phrase
syntax keyword formulaStatement note play rest skip control program bend set do
syntax keyword formulaBlock if else repeat par branch warp channel volume gate rhythm artic loud
syntax keyword formulaPart flat slope pause breath by to ticks key
syntax match formulaPart /\<max\>/
syntax keyword formulaFunction pick min less same
" where a parenthesis follows, max is a function
syntax match formulaFunction /\<max\ze\s*(/
syntax match formulaComment /#.*$/ contains=@Spell

highlight default link formulaError Error
highlight default link formulaName Identifier
highlight default link formulaPitch Constant
highlight default link formulaRegister Special
highlight default link formulaIndex Special
highlight default link formulaNumber Number
highlight default link formulaSymbol Delimiter
highlight default link formulaHead PreProc
highlight default link formulaDefinition Structure
highlight default link formulaStatement Statement
highlight default link formulaBlock Repeat
highlight default link formulaPart Keyword
highlight default link formulaFunction Function
highlight default link formulaComment Comment

let b:current_syntax = "formula"
