" Scripts and plans of stackc: a line in form has its words marked, and another line is bad as a whole.
if exists('b:current_syntax')
  finish
endif
syntax case match

syntax match scriptBad "^.\+$"
syntax match scriptWord "\l\+" contained
syntax match scriptNumber "\d\+" contained
syntax match scriptAddress "\d\+\.[0-9.]\+:\d\+" contained
syntax match scriptBytes "\%( \)\@1<=\%(-\|\x\+\)$" contained
syntax match scriptLine "^group \%(0\|[1-9]\d*\) stamp \%(0\|[1-9]\d*\) members \%([1-9]\|[12]\d\|3[0-2]\)$" contains=scriptWord,scriptNumber
syntax match scriptLine "^\%(turn \%(0\|[1-9]\d*\) \)\?cast \%(0\|[1-9]\d*\) \%(-\|\%([0-9a-f]\{2}\)\+\)$" contains=scriptWord,scriptNumber,scriptBytes
syntax match scriptLine "^\%(turn \%(0\|[1-9]\d*\) \)\?send \%(0\|[1-9]\d*\) \%(0\|[1-9]\d*\) \%(-\|\%([0-9a-f]\{2}\)\+\)$" contains=scriptWord,scriptNumber,scriptBytes
syntax match scriptLine "^raw \%(0\|[1-9]\d*\) \%(-\|\%([0-9a-f]\{2}\)\+\)$" contains=scriptWord,scriptNumber,scriptBytes
syntax match scriptLine "^\%(turn \%(0\|[1-9]\d*\) \)\?leave \%(0\|[1-9]\d*\)$" contains=scriptWord,scriptNumber
syntax match scriptLine "^state \%(0\|[1-9]\d*\)$" contains=scriptWord,scriptNumber
syntax match scriptLine "^\%(tick\|give\) \%(0\|[1-9]\d*\) \%(0\|[1-9]\d*\)$" contains=scriptWord,scriptNumber
syntax match scriptLine "^peer \%(0\|[1-9]\d*\) \d\{1,3}\%(\.\d\{1,3}\)\{3}:\d\{1,5}$" contains=scriptWord,scriptNumber,scriptAddress
syntax match scriptComment "^#.*$"

highlight default link scriptBad Error
highlight default link scriptWord Statement
highlight default link scriptNumber Number
highlight default link scriptAddress Constant
highlight default link scriptBytes String
highlight default link scriptComment Comment

let b:current_syntax = 'stackscript'
