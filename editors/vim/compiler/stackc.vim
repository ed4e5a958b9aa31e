" :make checks the layer file, and the place of a refusal is an entry of the list of errors, with what the refusal means.
if exists('current_compiler')
  finish
endif
let current_compiler = 'stackc'

" The repository is three folders up; where this file was copied out of it, stackc is looked for on the path, and its own line is all that is told.
let s:top = fnamemodify(resolve(expand('<sfile>:p')), ':h:h:h:h')
let s:run = 'stackc'
if filereadable(s:top . '/tools/refusal.py')
  let s:run = 'python3 -B ' . shellescape(s:top . '/tools/refusal.py') . ' run ' . shellescape(s:top . '/stackc')
endif
execute 'CompilerSet makeprg=' . escape(s:run . ' check %:S', ' \"|')
CompilerSet errorformat=%f:%l:%c:\ %m,%-G%.%#
