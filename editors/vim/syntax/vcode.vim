" The colours of VCODE.
if exists('b:current_syntax')
  finish
endif

syntax case match
" All visible characters are of words, but for parentheses and braces.
syntax iskeyword 33-39,42-122,124,126
syntax sync minlines=200

" A second { in a comment begins nothing.
syntax match vcodeComment /{\_[^}]*}\?/ contains=vcodeMark,@Spell
" A comment that names a line of a source.
syntax match vcodeMark /\%({\)\@1<=@\s*\S\{-1,}:\d\+/ contained

syntax match vcodeJob /^\s*JOB\s\+\S\+\%(\s\+\d\+\)\{4}\s*$/ contains=vcodeHead,vcodeName,vcodeNumber
syntax match vcodeName /\%(^\s*JOB\s\+\)\@64<=\S\+/ contained
syntax match vcodeHead /^\s*\zsJOB\ze\s/ contained
syntax match vcodeHead /^\s*\zs\%(SIGNATURES\|CODE\|END\|BATCH\s\+2\)\ze\s*$/
syntax match vcodeSignature /^\s*\zs[^ \t(){}]\+\ze\s*([A-Z \t]*)\s*->/

syntax keyword vcodeControl RET IF ELSE ENDIF
syntax keyword vcodeControl FUNC nextgroup=vcodeFunction skipwhite skipempty
syntax keyword vcodeInstruction CALL nextgroup=vcodeFunction skipwhite skipempty
syntax match vcodeFunction /[^ \t\r(){}]\+/ contained

" The first words of instructions stand before a kind, but for these.
syntax match vcodeInstruction /[^ \t\r(){}]\+\ze[ \t\r]\+\%(INT\|BOOL\)\%([ \t\r{(]\|$\)/
syntax keyword vcodeInstruction CONST COPY POP CPOP I_TO_B B_TO_I INDEX MAKE_SEGDES LENGTHS
syntax keyword vcodeKind INT BOOL SEGDES
syntax keyword vcodeFlag T F
syntax match vcodeNumber /\%(^\|[ \t\r()}]\)\@1<=-\?\d\+\ze\%([ \t\r(){]\|$\)/

highlight default link vcodeComment Comment
highlight default link vcodeMark SpecialComment
highlight default link vcodeHead PreProc
highlight default link vcodeName Function
highlight default link vcodeSignature Function
highlight default link vcodeFunction Function
highlight default link vcodeControl Keyword
highlight default link vcodeInstruction Operator
highlight default link vcodeKind Type
highlight default link vcodeFlag Boolean
highlight default link vcodeNumber Number

let b:current_syntax = 'vcode'
