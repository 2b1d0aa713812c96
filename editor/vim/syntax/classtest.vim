" Vim syntax for charts, cuts, tables and suites of classtest. Copy this folder's two below ~/.vim.
if exists('b:current_syntax')
  finish
endif
" The 23 words that name nothing, and the words that begin a suite's lines.
syntax keyword classtestFormat chart cuts table suite
syntax keyword classtestDeclaration input output memory state assume cut row entry exit
syntax keyword classtestTransition on when do go in start history gives
syntax keyword classtestOperator and or not
syntax match classtestSuiteLine /^\(bound\|states\|class\|cover\|mark\|test\|end\)\>/
syntax match classtestNumber /\<\d\+\>/
syntax match classtestSymbol /[<>=!+*(),\/-]/
syntax match classtestComment /#.*$/
highlight default link classtestFormat PreProc
highlight default link classtestDeclaration Type
highlight default link classtestTransition Statement
highlight default link classtestOperator Operator
highlight default link classtestSuiteLine Statement
highlight default link classtestNumber Number
highlight default link classtestSymbol Operator
highlight default link classtestComment Comment
let b:current_syntax = 'classtest'
