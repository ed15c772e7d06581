" XDuce: programs end in .x, documents in .xd. Vim takes .x for a file of rpcgen by default, so a file that
" looks like a program or a document of XDuce is told apart by its first line that is no blank and no comment.
autocmd BufNewFile,BufRead *.xd set filetype=xduce
autocmd BufNewFile,BufRead *.x call s:Look()

function! s:Look() abort
  " Of rpcgen: `/*`, `%`, `#`, `struct`, `const`, ..; its comments aren't those of XDuce.
  let l:inside = 0
  for l:line in getline(1, 200)
    let l:rest = l:line
    while 1
      if l:inside
        let l:end = stridx(l:rest, '*)')
        if l:end < 0
          break
        endif
        let l:rest = strpart(l:rest, l:end + 2)
        let l:inside = 0
      endif
      let l:rest = substitute(l:rest, '^\s*', '', '')
      if l:rest[0:1] !=# '(*'
        break
      endif
      let l:rest = strpart(l:rest, 2)
      let l:inside = 1
    endwhile
    if !l:inside && l:rest !=# ''
      if l:rest =~# '^\%(type\s\|fun\s\|()\|"\|\h\w*\[\)'
        set filetype=xduce
      endif
      return
    endif
  endfor
endfunction
