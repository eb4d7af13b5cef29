" Vim: `:make` by tools/report. Written by tools/editors.
let current_compiler = "chw"
let &l:makeprg = fnameescape(fnamemodify(resolve(expand('<sfile>:p')), ':h:h:h:h') . '/tools/report') . ' %:S'
CompilerSet errorformat=%f:%l:%c:\ %trror:\ %m
