" Vim syntax of texts for Titan: models, scripts, wishes, watched plants, control programs and printed traces.
" Put it into ~/.vim/syntax/titan.vim, and into ~/.vim/ftdetect/titan.vim the line
"     autocmd BufRead,BufNewFile *.titan setfiletype titan
if exists("b:current_syntax")
  finish
endif

" The first word of a line, which says what it is.
syntax match titanDeclaration /^\s*\(titan\|component\|var\|rule\|script\|trace\)\>/
syntax match titanMove /^\s*\(move\|repair\|fail\)\>/
syntax match titanEvent /^\s*\(goal\|clear\|observe\|fault\|mirror\|reset\|tick\|sent\|at\|weight\|want\)\>/
syntax match titanProgram /^\s*\(program\|end\|reach\|await\|seq\|both\|choose\|otherwise\|repeat\|done\)\>/
syntax match titanAnswer /^\(tick \d\+\|world\|plan\|back\|target\|refused\|checked\|no\|order\|bound\|ways\|cube\)\>/
syntax match titanAnswer /\<\(idle\|achieved\|unexplained\|holding\)$/
syntax match titanAnswer /\<\(send\|unreachable\)\ze \S\+$/

" The reserved words, numbers, signs and comments.
syntax keyword titanReserved start sensed by when cost
syntax keyword titanOperator and or not in implies iff
syntax keyword titanBoolean true false
syntax match titanNumber /\<\d\+\>/
syntax match titanSign /->\|!=\|[=,(){}]/
syntax match titanComment /#.*$/

highlight default link titanDeclaration Structure
highlight default link titanMove Type
highlight default link titanEvent Statement
highlight default link titanProgram Conditional
highlight default link titanAnswer Identifier
highlight default link titanReserved Keyword
highlight default link titanOperator Operator
highlight default link titanBoolean Boolean
highlight default link titanNumber Number
highlight default link titanSign Delimiter
highlight default link titanComment Comment

let b:current_syntax = "titan"
