" How descriptions in the PADS language are edited: their comments.
if exists('b:did_ftplugin')
  finish
endif
let b:did_ftplugin = 1
setlocal commentstring=//\ %s comments=s1:/*,mb:*,ex:*/,://,:/-
let b:undo_ftplugin = 'setlocal commentstring< comments<'
