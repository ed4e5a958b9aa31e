" Reports and journals of stackc: a line in form has its words marked, and another line is bad as a whole.
if exists('b:current_syntax')
  finish
endif
syntax case match

syntax match reportBad "^.\+$"
syntax match reportMark "[][./(),:]" contained
syntax match reportNone "-" contained
syntax match reportNumber "\d\+" contained
syntax match reportName "\a\w*" contained
syntax match reportConstant "\%( \)\@1<=\l\+$" contained
syntax match reportAll "\<all\>" contained
syntax match reportWord "^\l\+" contained
syntax match reportMessage "\<\%(cast\|send\)\>" contained
syntax match reportBytes "\%( \)\@1<=\%(-\|\x\+\)$" contained
syntax match reportRowBytes ":\@1<=\%(-\|\x\+\)\ze\]" contained
syntax match reportEvent "^> " contained nextgroup=reportEventWord
syntax match reportEventWord "\l\+" contained
syntax match reportLine "^deliver \%(0\|[1-9]\d*\) \%(cast\|send\) \%(0\|[1-9]\d*\) \%(-\|\%([0-9a-f]\{2}\)\+\)$" contains=reportWord,reportNumber,reportMessage,reportBytes
syntax match reportLine "^\%(block\|announce\|timer\|absent\) \%(0\|[1-9]\d*\) \%(0\|[1-9]\d*\)$" contains=reportWord,reportNumber
syntax match reportLine "^packet \%(0\|[1-9]\d*\) \%(0\|[1-9]\d*\) \%(all\|\%(0\|[1-9]\d*\)\) \%(-\|\a[][A-Za-z0-9_.,()/]*\) \%(-\|\%([0-9a-f]\{2}\)\+\)$" contains=reportWord,reportNumber,reportName,reportAll,reportMark,reportNone,reportBytes
syntax match reportLine "^\%(view\|state\) \%(0\|[1-9]\d*\) \%(0\|[1-9]\d*\) \%(0\|[1-9]\d*\)$" contains=reportWord,reportNumber
syntax match reportLine "^\%(out\|lost\|deaf\|end\|visits\) \%(0\|[1-9]\d*\)$" contains=reportWord,reportNumber
syntax match reportLine "^refused \%(0\|[1-9]\d*\) \%(out\|big\|short\|form\|group\|stamp\|view\|sender\|dest\|plan\|chain\|body\)$" contains=reportWord,reportNumber,reportConstant
syntax match reportLine "^state \%(0\|[1-9]\d*\) out$" contains=reportWord,reportNumber,reportConstant
syntax match reportLine "^cell \%(0\|[1-9]\d*\) \%(0\|[1-9]\d*\) \a\w*\.\a\w*\%(\[\%(0\|[1-9]\d*\)\]\)\? .\+$" contains=reportWord,reportNumber,reportName,reportMark,reportNone,reportRowBytes
syntax match reportLine "^wire \%(0\|[1-9]\d*\) \%(-\|\%([0-9a-f]\{2}\)\+\)$" contains=reportWord,reportNumber,reportBytes
syntax match reportLine "^> \%(cast\|raw\) \%(0\|[1-9]\d*\) \%(-\|\%([0-9a-f]\{2}\)\+\)$" contains=reportEvent,reportNumber,reportBytes
syntax match reportLine "^> send \%(0\|[1-9]\d*\) \%(0\|[1-9]\d*\) \%(-\|\%([0-9a-f]\{2}\)\+\)$" contains=reportEvent,reportNumber,reportBytes
syntax match reportLine "^> \%(leave\|state\) \%(0\|[1-9]\d*\)$" contains=reportEvent,reportNumber
syntax match reportLine "^> \%(tick\|give\) \%(0\|[1-9]\d*\) \%(0\|[1-9]\d*\)$" contains=reportEvent,reportNumber

highlight default link reportBad Error
highlight default link reportMark Delimiter
highlight default link reportNone Constant
highlight default link reportNumber Number
highlight default link reportName Identifier
highlight default link reportConstant Constant
highlight default link reportAll Constant
highlight default link reportWord Statement
highlight default link reportMessage Statement
highlight default link reportBytes String
highlight default link reportRowBytes String
highlight default link reportEvent Special
highlight default link reportEventWord Statement

let b:current_syntax = 'stackreport'
