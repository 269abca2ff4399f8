" Contracts are checked by :make, which jumps to the place that nomos-explain names. The variable g:nomos_explain may
" name another program, such as the explain of a checkout.
if exists("current_compiler")
  finish
endif
let current_compiler = "nomos"

if exists(":CompilerSet") != 2
  command -nargs=* CompilerSet setlocal <args>
endif
execute "CompilerSet makeprg=" . escape(get(g:, "nomos_explain", "nomos-explain") . " %:S", " \\|\"")
CompilerSet errorformat=%f:%l:%c:\ %m,%+Gmend:%.%#,%+Gsee:%.%#,%+Gnow:%.%#,%+Gmeans:%.%#,%-G%.%#
