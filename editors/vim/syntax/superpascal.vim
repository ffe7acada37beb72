" Vim syntax file for SuperPascal.
if exists("b:current_syntax")
  finish
endif

syntax case ignore

syntax keyword superpascalDeclaration program procedure function const type var array of record end begin
syntax keyword superpascalConditional if then else case
syntax keyword superpascalRepeat while do repeat until for to downto
syntax keyword superpascalParallel parallel forall
syntax keyword superpascalStatement assume
syntax keyword superpascalOperator and or not div mod
" Words of Pascal and SuperPascal that the profile refuses.
syntax keyword superpascalRefused file forward goto in label nil packed set sic with
syntax keyword superpascalType integer boolean char
syntax keyword superpascalConstant false true maxint
syntax keyword superpascalFunction abs sqr odd ord chr succ pred eof eoln
syntax keyword superpascalProcedure read readln write writeln open send receive

syntax match superpascalNumber "\<\d\+\>"
" Numbers and bytes that the profile refuses.
syntax match superpascalRefused "\<\d\+\(\.\d\+\|[eE][+-]\=\d\+\)\|[\^@/]"
" The name that a heading declares.
syntax match superpascalName "\(\<\(program\|procedure\|function\)\s\+\)\@<=\a\w*"
syntax match superpascalSign ":=\|<>\|<=\|>=\|\.\.\||"
" The closing quote of a text is one that no other quote follows, and stands on the same line.
syntax match superpascalText "'\([^'\n\r]\|''\)*''\@!"
syntax match superpascalUnfinished "'\([^'\r]\|''\)*\(\r\|$\)"
" A comment is closed as it was opened, and does not nest. Where no end follows, the rest of the text is in it.
syntax region superpascalComment start="{" end="}"
syntax region superpascalComment start="(\*" end="\*)"
syntax region superpascalUnfinished start="{\(\_[^}]*}\)\@!" end="\%$"
syntax region superpascalUnfinished start="(\*\(\_.\{-}\*)\)\@!" end="\%$"
syntax sync fromstart

highlight default link superpascalDeclaration Keyword
highlight default link superpascalConditional Conditional
highlight default link superpascalRepeat Repeat
highlight default link superpascalParallel Special
highlight default link superpascalStatement Statement
highlight default link superpascalOperator Operator
highlight default link superpascalRefused Error
highlight default link superpascalUnfinished Error
highlight default link superpascalType Type
highlight default link superpascalConstant Constant
highlight default link superpascalFunction Function
highlight default link superpascalProcedure Function
highlight default link superpascalNumber Number
highlight default link superpascalName Function
highlight default link superpascalSign Operator
highlight default link superpascalText String
highlight default link superpascalComment Comment

let b:current_syntax = "superpascal"
