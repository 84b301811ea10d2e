" Vim syntax file for the books of elements (docs/book.md). Each line is told by its first word.
if exists('b:current_syntax')
  finish
endif

syntax case match
syntax iskeyword @,48-57,_,39,-,.

" Where several begin at one place the last one counts, so names stand first.
syntax match elementsName /\<[A-Za-z][A-Za-z0-9_']\{0,15}\>/
syntax match elementsComment /^\s*#.*/ contains=elementsTodo
syntax keyword elementsTodo contained TODO FIXME XXX

" Heads of lines. A title or a rule may be any word, also one of the language.
syntax match elementsTitleLine /^\s*\(theorem\|define\|apply\)\s\+\S\+/ contains=elementsTitleWord,elementsTitle
syntax match elementsTitleWord contained /^\s*\zs\(theorem\|define\|apply\)/ nextgroup=elementsTitle skipwhite
syntax match elementsTitle contained /[A-Za-z][A-Za-z0-9._-]*/
syntax match elementsRuleLine /^\s*by\s\+\S\+/ contains=elementsRuleWord,elementsRule
syntax match elementsRuleWord contained /^\s*\zsby/ nextgroup=elementsRule skipwhite
syntax match elementsRule contained /[A-Za-z][A-Za-z0-9._-]*/

syntax keyword elementsStatement end points lines circles given made show proof
syntax keyword elementsStep hence let claim superpose
syntax keyword elementsClose qed contradiction cases else
syntax keyword elementsPlace point line circle side opposite of beyond from outside meet centers
syntax keyword elementsPlace avoid onto
syntax match elementsPlace /\(\s\)\@1<=as\(\s\|$\)\@=/

" An item: the word as and the title of a definition, at the head of a list or behind a semicolon.
syntax match elementsItem /\(^\s*\(given\|show\|claim\)\s\+\|\s\(;\|show\)\s\+\)\@<=as\s\+\S\+/ contains=elementsItemWord
syntax match elementsItemWord contained /as\ze\s/ nextgroup=elementsTitle skipwhite

syntax keyword elementsRelation on inside center between same-side meets
syntax keyword elementsNot not
syntax keyword elementsTerm seg ang area right
syntax keyword elementsReserved figure
syntax match elementsOperator /\(\s\|^\)\@1<=\(=\|!=\|<\|<=\|+\)\(\s\|$\)\@=/
syntax match elementsSeparator /\(\s\)\@1<=[;:]\(\s\|$\)\@=/
syntax match elementsBlank /\(\s\)\@1<=_\(\s\|$\)\@=/
syntax match elementsNumber /\<\d\+\>/

highlight default link elementsComment Comment
highlight default link elementsTodo Todo
highlight default link elementsTitleWord Keyword
highlight default link elementsTitle Function
highlight default link elementsItemWord Keyword
highlight default link elementsRuleWord Keyword
highlight default link elementsRule Special
highlight default link elementsStatement Keyword
highlight default link elementsStep Keyword
highlight default link elementsClose Conditional
highlight default link elementsPlace Keyword
highlight default link elementsRelation Type
highlight default link elementsNot Operator
highlight default link elementsTerm Type
highlight default link elementsReserved Error
highlight default link elementsOperator Operator
highlight default link elementsSeparator Delimiter
highlight default link elementsBlank Special
highlight default link elementsNumber Number
highlight default link elementsName Identifier

let b:current_syntax = 'elements'
