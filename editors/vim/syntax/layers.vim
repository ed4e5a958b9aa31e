" Layer files of stackc. Where two items begin at one place, the later one here is taken.
if exists('b:current_syntax')
  finish
endif
syntax case match

syntax match layersBad "[^ \t\r]"
syntax match layersMark "[][{}(),;:.]"
syntax match layersOperator "==\|!=\|<=\|>=\|[-=<>+*&|^]"
syntax match layersBehindNumber "[A-Za-z_]\w*" contained
syntax match layersNumber "\d\+" nextgroup=layersBehindNumber
syntax match layersBad "0\d\+\|[1-9]\d\{10,}\|[5-9]\d\{9}\|4[3-9]\d\{8}\|429[5-9]\d\{6}\|42949[7-9]\d\{4}\|429496[89]\d\{3}\|4294967[3-9]\d\{2}\|429496729[6-9]"
syntax match layersName "\<\a\w*"
syntax match layersBad "\<\a\w\{32,}"
syntax keyword layersDeclaration layer stack param state int queue of msg part header passes ends
syntax keyword layersStatement up down with common rare two let set push take else if each below max
syntax keyword layersWordOperator and or not
syntax keyword layersFunction len at held size cut tail join pick bit count lowest
syntax keyword layersConstant me n ltime nothing none
syntax keyword layersKind Cast Send Timer Suspect Stable Ack Elect Block BlockOk Flushed View Leave
syntax match layersComment "#.*$"

highlight default link layersBad Error
highlight default link layersBehindNumber Error
highlight default link layersMark Delimiter
highlight default link layersOperator Operator
highlight default link layersNumber Number
highlight default link layersName Identifier
highlight default link layersDeclaration Structure
highlight default link layersStatement Statement
highlight default link layersWordOperator Operator
highlight default link layersFunction Function
highlight default link layersConstant Constant
highlight default link layersKind Type
highlight default link layersComment Comment

let b:current_syntax = 'layers'
