" Scripts of ntbsim: declarations, steps and macros, traffic, and comments, with the conditions in them.
if exists("b:current_syntax")
  finish
endif
syntax match ntbComment "^\s*#.*$"
syntax match ntbCondition "^\s*#[=!].*$"
syntax match ntbCondition "^\s*#\(always\|sometimes\|never\|call\)\>.*$"
syntax match ntbHeader "\%^ntb 1$"
syntax match ntbPart "^\s*\(steps\|traffic\)\s*$"
syntax match ntbDeclaration "^\s*\(host\|pair\|dev\|class\|switch\)\>"
syntax match ntbStep "^\s*\(enable\|train\|break\|drop\|clean\|offer\|check\|ready\|join\|begin\|qpdown\|xbegin\|post\|land\|look\|copy\|clear\|ack\|wake\|irq\|mask\|unmask\|spad\|poke\|relay\|xnext\)\>"
syntax match ntbShow "^\s*\(showmem\|showspad\|showq\)\>"
syntax match ntbMacro "^\s*\(send\|xmit\|landall\|recv\|offerall\)\>"
syntax match ntbTraffic "^\s*\(frame\|flood\)\>"
syntax match ntbOption "\<\(up\|strict\|raw\)\>"
syntax match ntbOption "\<\(size\|cap\|windows\|queues\|version\)[AB]\?\ze="
syntax match ntbOption "\<\(mtu\|stop\|start\)\ze="
syntax match ntbSide "\s\zs[AB]\ze\(\s\|$\)"
highlight default link ntbComment Comment
highlight default link ntbCondition SpecialComment
highlight default link ntbHeader PreProc
highlight default link ntbPart PreProc
highlight default link ntbDeclaration Type
highlight default link ntbStep Statement
highlight default link ntbShow Function
highlight default link ntbMacro Macro
highlight default link ntbTraffic Keyword
highlight default link ntbOption Identifier
highlight default link ntbSide Constant
let b:current_syntax = "ntb"
