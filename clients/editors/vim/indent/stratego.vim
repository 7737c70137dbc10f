" Indentation of modules of stratbench, by the rules of the layout in docs/manual/server.md.

if exists("b:did_indent")
  finish
endif
let b:did_indent = 1

setlocal indentexpr=StrategoIndent()
setlocal indentkeys=!^F,o,O,0),0],0},0=module,0=signature,0=rules,0=strategies,0=sorts,0=constructors,0=then,0=else,0=end
let b:undo_indent = "setlocal indentexpr< indentkeys<"

if exists("*StrategoIndent")
  finish
endif

" A line without what is in strings and comments of that line.
function s:Plain(number)
  return substitute(substitute(getline(a:number), '"\%(\\.\|[^"\\]\)*"', '""', "g"), '//.*$\|/\*.\{-}\*/', "", "g")
endfunction

let s:head = '^\s*[A-Za-z_][A-Za-z0-9_'."'".'-]*\s*\%(([^()]*)\)\=\s*[:=]\%([^>]\|$\)'
let s:section = '^\s*\%(module\|signature\|rules\|strategies\)\>'
let s:part = '^\s*\%(sorts\|constructors\)\>'

" How many more brackets, and `if`s, a text opens than it closes.
function s:Opened(text)
  let opened = 0
  let at = 0
  while 1
    let [sign, at, end] = matchstrpos(a:text, '[()[\]{}]\|\<if\>\|\<end\>', at)
    if at < 0
      return opened
    endif
    let opened += index(["(", "[", "{", "if"], sign) >= 0 ? 1 : -1
    let at = end
  endwhile
endfunction

function StrategoIndent()
  let line = s:Plain(v:lnum)
  if line !~ '\S' && getline(v:lnum) =~ '^\s*/[/*]'
    " a comment is indented as what comes next
    let next = v:lnum + 1
    while next < line("$") && s:Plain(next) !~ '\S'
      let next += 1
    endwhile
    let line = s:Plain(next)
  endif
  if line =~# s:section
    return 0
  elseif line =~# s:part
    return shiftwidth()
  endif
  " the line before that has something in it, and the first of the item that it belongs to
  let before = prevnonblank(v:lnum - 1)
  while before > 0 && s:Plain(before) !~ '\S'
    let before = prevnonblank(before - 1)
  endwhile
  if before == 0
    return 0
  endif
  let first = before
  while first > 1 && s:Plain(first) !~# s:head && s:Plain(first) !~# s:section && s:Plain(first) !~# s:part
    let first -= 1
  endwhile
  let text = s:Plain(first)
  if text =~# s:section || text =~# s:part
    return indent(first) + shiftwidth()
  elseif line =~# s:head && s:Opened(join(map(range(first, before), "s:Plain(v:val)"))) <= 0
    return indent(first)
  endif
  let opened = s:Opened(join(map(range(first, before), "s:Plain(v:val)")))
  let closes = line =~# '^\s*\%([)\]}]\|\%(then\|else\|end\)\>\)'
  if line !~ '\S' && opened <= 0 && s:Plain(before) !~ '[;=:>+]\s*$\|<+\s*$\|\<where\s*$'
    " an item may begin here
    return indent(first)
  endif
  return indent(first) + shiftwidth() * (1 + max([0, opened - closes]))
endfunction
