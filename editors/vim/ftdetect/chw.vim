" Written by tools/editors.
au BufRead,BufNewFile *.chw setfiletype chw
au BufRead,BufNewFile *.stim setfiletype chwstim
