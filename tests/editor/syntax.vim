" Writes what the files of the command line hold, to the file $GROUPS: of each its filetype, its
" commentstring, and for each line a list with the syntax group of each character.
function! s:groups(at) abort
  return map(range(1, len(getline(a:at))), 'synIDattr(synID(' . a:at . ', v:val, 1), "name")')
endfunction

let s:found = []
for s:file in argv()
  execute 'edit' fnameescape(s:file)
  syntax sync fromstart
  call add(s:found, [&filetype, &commentstring, map(range(1, line('$')), 's:groups(v:val)')])
endfor
call writefile([json_encode(s:found)], $GROUPS)
qall!
