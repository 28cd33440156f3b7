" Vim indentation of files of the Sun RPC language (rpcgen): by the braces and cases in front of a line.
if exists('b:did_indent')
  finish
endif
let b:did_indent = 1

setlocal indentexpr=RpcgenIndent(v:lnum) indentkeys=0},!^F,o,O,=case,=default
let b:undo_indent = 'setlocal indentexpr< indentkeys<'

if exists('*RpcgenIndent')
  finish
endif

" The line before this one that begins with code or with a comment.
function! s:Before(line)
  let before = prevnonblank(a:line - 1)
  while before > 0 && getline(before) =~# '^\s*[#*]\|^%'
    let before = prevnonblank(before - 1)
  endwhile
  return before
endfunction

function! RpcgenIndent(line)
  let text = getline(a:line)
  " Lines for the preprocessor or for the C text, and those in a comment, stay.
  if text =~# '^\s*[#*]\|^%'
    return -1
  endif
  let before = s:Before(a:line)
  if before == 0
    return 0
  endif
  let column = indent(before)
  if substitute(getline(before), '/\*.\{-}\*/', '', 'g') =~# '[{:]\s*$'
    let column += shiftwidth()
  endif
  if text =~# '^\s*\%(}\|\%(case\|default\)\>\)'
    let column -= shiftwidth()
  endif
  return max([column, 0])
endfunction
