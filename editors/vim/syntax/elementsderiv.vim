" Vim syntax file for derivation texts of elements (docs/derivation.md): the lines of a book, lines
" of certificates, which begin with a bar, and the lines that come first and last.
if exists('b:current_syntax')
  finish
endif
runtime! syntax/elements.vim
unlet b:current_syntax

" There are no comments in a derivation text.
syntax clear elementsComment

syntax match elementsHead /^derivation \d\+$/ contains=elementsNumber
syntax match elementsAccepted /^accepted \d\+$/ contains=elementsNumber
syntax match elementsStop /^\(unlicensed\|too-wide\|bad\) \S\+ \d\+$/ contains=elementsNumber,elementsStopTitle
syntax match elementsStopTitle contained / \zs[A-Za-z][A-Za-z0-9._-]*\ze \d\+$/
syntax match elementsStop /^fault \d\+ [a-z -]\+$/ contains=elementsNumber
syntax match elementsStop /^garbled \d\+$/ contains=elementsNumber
syntax match elementsStop /^\(text limit\|read fault\|no memory\)$/

" Certificates. Behind the bar a word tells the kind of the line, or a number begins a row.
syntax match elementsBar /^|/ nextgroup=elementsCertificate,elementsTransfer,elementsMultiplier,elementsValue skipwhite
syntax match elementsCertificate contained /\(fact\|metric\|sum\|clash\)\( \|$\)\@=/
syntax match elementsCertificate contained /differs\( goal$\| fact \)\@=/ nextgroup=elementsRow skipwhite
syntax match elementsTransfer contained /transfer\( \)\@=/ nextgroup=elementsRule skipwhite
syntax match elementsMultiplier contained /-\?\d\+\( \)\@=/ nextgroup=elementsRow skipwhite
syntax match elementsRow contained /\(fact\|goal\|pos\|top\|least\|above\|below\|right\)\( \|$\)\@=/
syntax match elementsValue contained /\(wanted\|value\|width\)\( \)\@=/

highlight default link elementsHead PreProc
highlight default link elementsAccepted PreProc
highlight default link elementsStop Error
highlight default link elementsStopTitle Function
highlight default link elementsBar Delimiter
highlight default link elementsCertificate PreProc
highlight default link elementsTransfer PreProc
highlight default link elementsMultiplier Number
highlight default link elementsRow PreProc
highlight default link elementsValue PreProc

let b:current_syntax = 'elementsderiv'
