" Highlighting of contracts. .ci/editors compares the words with those of the program.
if exists("b:current_syntax")
  finish
endif

syntax keyword nomosDeclaration type fn proc cost
syntax keyword nomosModel ticks sends all
syntax keyword nomosMode R S L T
syntax keyword nomosKind int bool list
syntax keyword nomosType up down
syntax keyword nomosConstant true false nil me
syntax keyword nomosSelf self
syntax keyword nomosBranch if then else case match
syntax keyword nomosOperator and or not as
syntax keyword nomosInstruction send recv put take pay get work wait accept detach acquire release spawn let emit
syntax keyword nomosLast close fwd call
syntax match nomosNumber "\<[0-9]\+\>"
syntax match nomosAmount "{[ \t]*\%([0-9]\+\|\*\)[ \t]*}"
syntax match nomosComment "//.*$"

highlight default link nomosDeclaration Keyword
highlight default link nomosModel PreProc
highlight default link nomosMode StorageClass
highlight default link nomosKind Type
highlight default link nomosType Type
highlight default link nomosConstant Constant
highlight default link nomosSelf Identifier
highlight default link nomosBranch Conditional
highlight default link nomosOperator Operator
highlight default link nomosInstruction Statement
highlight default link nomosLast Statement
highlight default link nomosNumber Number
highlight default link nomosAmount Special
highlight default link nomosComment Comment

let b:current_syntax = "nomos"
