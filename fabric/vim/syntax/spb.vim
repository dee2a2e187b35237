" Syntax of spbsim's scripts: put fabric/vim into runtimepath.
if exists("b:current_syntax")
  finish
endif
syntax match spbDeclare /^\s*\(vid\|bridge\|link\|isid\|attach\|detach\)\>/
syntax match spbEvent /^\s*\(metric\|down\|up\|restart\|tick\|deliver\|lose\|double\|round\|drain\|settle\|frame\)\>/
syntax match spbAsk /^\s*\(state\|show\|wiring\|db\|adj\|path\|drops\|proof\|check\)\>/
syntax match spbAsk /^\s*whatif\(\s\+\(down\|up\|metric\)\)\?\>/
syntax match spbNumber /\s\@<=[0-9][0-9A-Fa-f]*\>/
syntax match spbComment /^#.*$/
" A comment begins with the first byte of its line.
syntax match spbWrong /\s#.*$/
syntax match spbWrong /\<[0-9A-Fa-f]\{2}\([:.-][0-9A-Fa-f]\{2}\)\+\>/
highlight default link spbDeclare Type
highlight default link spbEvent Statement
highlight default link spbAsk Identifier
highlight default link spbNumber Number
highlight default link spbComment Comment
highlight default link spbWrong Error
let b:current_syntax = "spb"
