" Comments of layer files, and what :make makes of them (compiler/stackc.vim).
if exists('b:did_ftplugin')
  finish
endif
let b:did_ftplugin = 1
setlocal commentstring=#\ %s comments=:#
compiler stackc
let b:undo_ftplugin = 'setlocal commentstring< comments< makeprg< errorformat<'
