" :make checks the book, or the whole library of its folder where it has a book.toml.
if exists('current_compiler')
  finish
endif
let current_compiler = 'elements'
if filereadable(expand('%:p:h') .. '/book.toml')
  CompilerSet makeprg=euclid\ check\ %:p:h:S
else
  CompilerSet makeprg=euclid\ check\ %:p:S
endif
CompilerSet errorformat=%E%f:%l:%c:\ error:\ %m,%W%f:%l:%c:\ warning:\ %m,%I%f:%l:%c:\ note:\ %m,%-G%.%#
