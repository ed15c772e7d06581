" Vim filetype plugin
" Language: XDuce, programs and documents

if exists('b:did_ftplugin')
  finish
endif
let b:did_ftplugin = 1

setlocal comments=s:(*,ex:*)
setlocal commentstring=(*%s*)
setlocal formatoptions-=t formatoptions+=croql
setlocal suffixesadd=.x
setlocal matchpairs=(:),[:]
compiler xduce

let b:undo_ftplugin = 'setlocal comments< commentstring< formatoptions< suffixesadd< matchpairs< makeprg< errorformat<'
