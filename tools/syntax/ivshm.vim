" Scenarios and records of ivshm (docs/FORMATS.md).
" For these files: autocmd BufRead,BufNewFile *.ivshm,*.record,*.scenario,*.plain setfiletype ivshm
if exists('b:current_syntax')
  finish
endif

syntax case match
syntax match ivshmHead /^\(record\|ivshm\|peers\|table\|common\|out\|mtu\|irq\|peer\|begin\|end\)\>/
syntax match ivshmKind /\<\(honest\|hostile\|msix\|intx\)\>/
syntax match ivshmCall /^\(tick\|offer\|poll\|stop\|auto\|storm\|turn\|reset\|handshake\|repeat\)\>/
syntax match ivshmAct /^\(poke\|peek\|set\|ring\|cfg\|mmio\|msix\|lose\|again\)\>/
syntax match ivshmAccess /^\(r\|w\|s\|d\|i\|x\|idle\|cr\|cw\|mr\|mw\|tr\|tw\|lost\)\>/
syntax match ivshmMark /^\(saw\|reclaim\|look\|full\|done\|over\|down\|accept\|deliver\|return\|session\)\>/
syntax match ivshmFault /^\(refuse\|denied\)\>/
syntax match ivshmNumber /\<\d\+\>/
syntax match ivshmNumber /\<0x\x\+\>/
syntax match ivshmComment /#.*/

highlight default link ivshmHead PreProc
highlight default link ivshmKind Type
highlight default link ivshmCall Statement
highlight default link ivshmAct Function
highlight default link ivshmAccess Identifier
highlight default link ivshmMark Special
highlight default link ivshmFault Error
highlight default link ivshmNumber Number
highlight default link ivshmComment Comment

let b:current_syntax = 'ivshm'
