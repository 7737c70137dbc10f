" Vim compiler file: looks at the script or the module in the buffer, and makes a list of what is wrong with it. The client for Python
" prints the places in the form of compilers.

if exists("current_compiler")
  finish
endif
let current_compiler = "stratbench"

if exists(":CompilerSet") != 2
  command -nargs=* CompilerSet setlocal <args>
endif

" Set g:stratbench_options to what the scripts need, as in "--library --module rules=rules.str".
let s:options = get(g:, "stratbench_options", "--library")
execute "CompilerSet makeprg=" . escape("python3 -m stratbench.problems " . s:options . " %:S", ' \|"')

let s:formats = [
  \ '%f:%l:%c: %t%*[a-z]: %m',
  \ '%f:%l: %t%*[a-z]: %m',
  \ '%-G%.%#',
  \ ]
execute "CompilerSet errorformat=" . escape(join(s:formats, ","), ' \|"')
