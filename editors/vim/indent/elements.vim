" Two blanks for each block that is open: of a claim, a superposition, a case.
if exists('b:did_indent')
  finish
endif
let b:did_indent = 1
setlocal indentexpr=ElementsIndent(v:lnum) indentkeys=o,O,*<Return>,0=else,0=end,0=qed nolisp
let b:undo_indent = 'setlocal indentexpr< indentkeys< lisp<'

if exists('*ElementsIndent')
  finish
endif

function ElementsIndent(number) abort
  let first = search('^\s*\(proof\|theorem\|define\)\>', 'bnW')
  if first == 0 || getline(first) !~# '^\s*proof'
    return 0
  endif
  let open = []
  for text in getline(first + 1, a:number - 1)
    let word = matchstr(text, '^\s*\zs\S\+')
    if word ==# 'claim' || word ==# 'superpose'
      call add(open, 'inner')
    elseif word ==# 'cases'
      call add(open, 'first')
    elseif word ==# 'else'
      call add(open, 'second')
    elseif word ==# 'qed' || word ==# 'contradiction'
      " the close of a second case closes the block that was parted too
      while !empty(open) && remove(open, -1) ==# 'second'
      endwhile
    elseif word ==# 'end'
      return 0
    endif
  endfor
  return shiftwidth() * len(open)
endfunction
