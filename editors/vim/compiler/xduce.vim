" Vim compiler file
" Compiler: XDuce, `xduce check`. `:make` lists the faults and warnings of the file that is edited.

if exists('current_compiler')
  finish
endif
let current_compiler = 'xduce'

if exists(':CompilerSet') != 2
  command -nargs=* CompilerSet setlocal <args>
endif

" The command tells no file, so it is put in front of each place. (`:make` itself would end at a plain `|`.)
let s:make = 'f=%:S; xduce check "$f" \| sed "s,^[0-9],$f:&,"'
execute 'CompilerSet makeprg=' . escape(s:make, ' \|"')
CompilerSet errorformat=%f:%l:%c:\ %tarning\ %m,%f:%l:%c:\ %m,%-Gaccepted
unlet s:make
