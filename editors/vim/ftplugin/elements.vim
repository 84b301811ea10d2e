" Books of elements: comments are whole lines; titles have dots and hyphens, and names may have a quote.
if exists('b:did_ftplugin')
  finish
endif
let b:did_ftplugin = 1
setlocal commentstring=#\ %s comments=:# iskeyword=@,48-57,_,39,.,-
setlocal expandtab shiftwidth=2 define=^\\s*\\(theorem\\\|define\\)\\s\\+ suffixesadd=.book
setlocal foldmethod=expr foldexpr=ElementsFold(v:lnum) foldlevel=99
compiler elements
let b:undo_ftplugin = 'setlocal commentstring< comments< iskeyword< define< suffixesadd< foldmethod< foldexpr< foldlevel< expandtab< shiftwidth<'
let b:undo_ftplugin .= ' makeprg< errorformat<'

if exists('*ElementsFold')
  finish
endif

" A theorem is a fold, and so is its proof.
function ElementsFold(number) abort
  let word = matchstr(getline(a:number), '^\s*\zs\S\+')
  if word ==# 'theorem' || word ==# 'define'
    return '>1'
  elseif word ==# 'proof'
    return '>2'
  elseif word ==# 'end'
    return '<1'
  endif
  return '='
endfunction
