" Written by tools/editors.
if exists("b:did_ftplugin")
  finish
endif
let b:did_ftplugin = 1
setlocal commentstring=--\ %s comments=:-- matchpairs=(:),{:},[:]
compiler chw
