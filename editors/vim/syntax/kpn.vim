" The networks of kpn. Of two matches at one place the later one counts.
if exists('b:current_syntax')
  finish
endif
syntax case match
syntax match kpnError /[^ \t\r]/
syntax match kpnPunctuation /[][(){};,]/
syntax match kpnOperator /[-+*\/%<>!=~&|^?:]/
syntax match kpnOperator /\.\.\|<=\|>=\|==\|!=\|&&\|||/
syntax match kpnNumber /[0-9]\+\%(_[0-9]\+\)*/
syntax match kpnNumber /0x[0-9A-Fa-f_]\+/
syntax match kpnNumber /0b[01_]\+/
syntax match kpnNumber /'\%([ -&(-\[\]-~]\|\\[n\\'0]\)'/
syntax match kpnError /[0-9]\{20,}/
syntax match kpnName /[A-Za-z_][A-Za-z0-9_]*/
syntax match kpnError /[A-Za-z_][A-Za-z0-9_]\{32,}/
syntax keyword kpnStatement read write if else while
syntax keyword kpnKeyword process network channel source sink in out par limit cap policy grow
syntax match kpnStatement /\<for\ze[ \t]\+[A-Za-z_][A-Za-z0-9_]*[ \t]\+in\>/
syntax match kpnConstant /\%(\<\%(policy\|grow\)[ \t]\+\)\@<=\%(cycles\|all\|one\|double\)\>/
syntax match kpnKeyword /language\ze[ \t]\+0*2[ \t]*;/
syntax match kpnKeyword /\<array\ze[ \t]\+[A-Za-z_][A-Za-z0-9_]*[ \t]*\[/
syntax match kpnKeyword /\<\%(table\|const\)\ze[ \t]\+[A-Za-z_][A-Za-z0-9_]*[ \t]*=/
syntax match kpnFunction /\%(\<process[ \t]\+\)\@<=[A-Za-z_][A-Za-z0-9_]\{,31}\>/
syntax match kpnFunction /\<\%(min\|max\)\ze[ \t]*(/
syntax match kpnComment /#.*$/

highlight default link kpnError Error
highlight default link kpnOperator Operator
highlight default link kpnNumber Number
highlight default link kpnStatement Statement
highlight default link kpnKeyword Keyword
highlight default link kpnConstant Constant
highlight default link kpnFunction Function
highlight default link kpnComment Comment
let b:current_syntax = 'kpn'
