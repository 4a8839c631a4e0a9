" Highlights descriptions in the PADS language (docs/LANGUAGE.md).
if exists('b:current_syntax')
  finish
endif

syntax keyword padsDeclaration Pstruct Punion Parray Penum Popt Ptypedef
syntax keyword padsMark Precord Psource Precursive
syntax keyword padsPart Pswitch Pcase Pdefault Pwhere Psep Pterm Plast Peor Pfrom Pcompute
syntax keyword padsForm Pforall Pin Pis Plen
syntax keyword padsBoolean true false

" Base types: the prefix says the coding.
syntax match padsType /\<P\%([ae]_\)\?u\?int\%(8\|16\|32\|64\)\%(_FW\)\?\>/
syntax match padsType /\<P\%(b\|sbl\|sbh\)_u\?int\%(8\|16\|32\|64\)\>/
syntax match padsType /\<P\%([ae]_\)\?\%(string\%(_FW\|_in\)\?\|char\|ip\)\>/
syntax match padsType /\<Pu\?\%(packed\|zoned\)\>/

syntax match padsNumber /\<\%(0x\x\+\|0\|[1-9]\d*\)\>/
syntax match padsEscape contained /\\\%(x\x\x\|[nrt0\\'"]\)/
syntax region padsText start=/"/ skip=/\\./ end=/"/ oneline contains=padsEscape
syntax match padsCharacter /'\%([^'\\]\|\\x\x\x\|\\[nrt0\\'"]\)'/ contains=padsEscape

syntax match padsOperator /[-+*%<>!=]\|\/\ze[^\/*-]\|||\|&&\|\.\.\|=>/
syntax match padsArguments /(:\|:)/
syntax match padsComment ,//.*$\|/-.*$, contains=@Spell,padsTodo
syntax region padsComment start=,/\*, end=,\*/, contains=@Spell,padsTodo
syntax keyword padsTodo contained TODO FIXME XXX

highlight default link padsDeclaration Structure
highlight default link padsMark StorageClass
highlight default link padsPart Statement
highlight default link padsForm Function
highlight default link padsBoolean Boolean
highlight default link padsType Type
highlight default link padsNumber Number
highlight default link padsText String
highlight default link padsCharacter Character
highlight default link padsEscape SpecialChar
highlight default link padsOperator Operator
highlight default link padsArguments Delimiter
highlight default link padsComment Comment
highlight default link padsTodo Todo

let b:current_syntax = 'pads'
