" Vim: the colours of a description. Written by tools/editors.
if exists("b:current_syntax")
  finish
endif
syn case match
syn iskeyword @,48-57,_
syn match chwError /\S/
syn match chwSymbol /->\|\/\\\|;\|:\|=\||\|,\|\.\|\\\|@\|+\|\*\|_/
syn match chwBracket /(\|)\|{\|}\|\[\|\]/
syn match chwName /\l\w*/
syn match chwUpper /\u[A-Za-z0-9]*/
syn match chwNumeral /\d\+/
syn match chwLiteral /-\?\d\+s\d\+\|\d\+[ub]\d\+/
syn keyword chwPrimitive addU addS subU subS mulU mulS xaddU xaddS xmulU xmulS
syn keyword chwPrimitive andU andS andB orU orS orB xorU xorS xorB notU
syn keyword chwPrimitive notS notB shlU shlS shlB shrU shrS shrB eqU eqS
syn keyword chwPrimitive eqB ltU ltS extU extS extB truncU truncS truncB slice
syn keyword chwPrimitive join redAnd redOr redXor packU packS unpackU unpackS fmap ap
syn keyword chwPrimitive pure register blockRam unsafeSynchronizer vget vgetC vat vreplace vmap vmapC
syn keyword chwPrimitive vzipWith vzipWithC vfoldl vfoldlC vfoldr vfoldrC vgenerate vgenerateC vreplicate vreplicateC
syn keyword chwPrimitive vappend vappendC vconcat vconcatC vtake vtakeC vdrop vdropC vreverse vreverseC
syn keyword chwPrimitive vrotl vrotlC
syn keyword chwConstructor False True Nothing Just
syn keyword chwType Unsigned Signed BitVector Vec Signal Bool Maybe Pair
syn keyword chwKind Nat Dom Val Cir
syn keyword chwKeyword domain data def top letrec in case of forall vec
syn match chwDefinition /\%(\<def\s\+\)\@<=\l\w*/
syn match chwReset /\%(\<domain\s\+\u\w*\s\+\)\@<=reset\>/
syn match chwComment /--.*$/
hi def link chwComment Comment
hi def link chwReset Keyword
hi def link chwDefinition Identifier
hi def link chwKeyword Keyword
hi def link chwKind StorageClass
hi def link chwType Type
hi def link chwConstructor Constant
hi def link chwPrimitive Function
hi def link chwLiteral Number
hi def link chwNumeral Number
hi def link chwUpper Structure
hi def link chwBracket Delimiter
hi def link chwSymbol Operator
hi def link chwError Error
let b:current_syntax = "chw"
