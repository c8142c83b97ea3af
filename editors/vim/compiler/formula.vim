" Vim compiler file
" Compiler: formula, which plays a score, or refuses it at one place
if exists("current_compiler")
  finish
endif
let current_compiler = "formula"

" g:formula_command names another command, such as a checkout's bin/formula
let s:command = get(g:, "formula_command", "formula")
execute "CompilerSet makeprg=" . escape(s:command . " %:p:S %:p:r:S.mid", " \\|\"")

" the place is in the text that is played, so the line names no file; what stands round it is no error
CompilerSet errorformat=formula:\ score\ refused:\ %l:%c\ fault\ %n,%-G%.%#
