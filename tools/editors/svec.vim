" Kernels of svec: colours, and what :make runs. As ~/.vim/syntax/svec.vim, with
"   autocmd BufNewFile,BufRead *.k setfiletype svec
if exists("b:current_syntax")
  finish
endif
syntax keyword svecStatement kernel var let for in if else break return
syntax keyword svecFunction select min max abs
syntax keyword svecOperator as
syntax keyword svecType i8 i16 i32 i64 u8 u16 u32 u64
syntax match svecNumber "\<\(0x\x\+\|\d\+\)\>"
syntax match svecSign "->\|\.\.\|[-+*&|^~!=<>]"
syntax match svecComment "//.*$"
highlight default link svecStatement Statement
highlight default link svecFunction Function
highlight default link svecOperator Operator
highlight default link svecType Type
highlight default link svecNumber Number
highlight default link svecSign Operator
highlight default link svecComment Comment
setlocal commentstring=//\ %s
setlocal makeprg=svec\ explain\ %
setlocal errorformat=%f:%l:%c:\ %trror:\ %m,%f:%l:%c:\ %tarning:\ %m,%f:%l:%c:\ %tote:\ %m,%-G%.%#
let b:current_syntax = "svec"
