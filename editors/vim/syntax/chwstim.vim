" Vim: the colours of a stimulus. Written by tools/editors.
if exists("b:current_syntax")
  finish
endif
syn case match
syn iskeyword @,48-57,_
syn match chwstimError /\S/
syn match chwstimSymbol /:\ze\%( \|$\)\|\w\@1<==\ze\x/
syn match chwstimReset /!\ze[ :]/
syn match chwstimDomain /\u[A-Za-z0-9]*\ze[!: ]/
syn match chwstimBits /=\@1<=\x\+/
syn match chwstimInput / \@1<=\l\w*\ze=/
syn match chwstimCount /^\d\{1,6}\* /
hi def link chwstimCount PreProc
hi def link chwstimInput Identifier
hi def link chwstimBits Number
hi def link chwstimDomain Type
hi def link chwstimReset Special
hi def link chwstimSymbol Operator
hi def link chwstimError Error
let b:current_syntax = "chwstim"
