" Colours of the language of decl: the tokens of docs/LANGUAGE.md
if exists("b:current_syntax")
  finish
endif
let s:cpo = &cpo
set cpo&vim

syntax case match
setlocal iskeyword=@,48-57,_,-
setlocal commentstring=#\ %s

" sev is a match, since a keyword would take it from a reference; a name is any word behind these that is none of the lists
syntax keyword declDeclare agg port nextgroup=declName,declCount,declWord,declRefused skipwhite skipempty
syntax match declDeclare "\<sev\>\.\@!" nextgroup=declName,declCount,declWord,declRefused skipwhite skipempty
syntax keyword declDeclare common
syntax keyword declCount fixed poisson bernoulli binomial mixed gamma geometric zt zm
syntax keyword declWord claim claims loss prem premium at lr dfreq dsev dhistogram xps xs inf
syntax keyword declWord occurrence aggregate net of ceded to and so po wts
syntax keyword declRefused lognorm expon pareto weibull norm uniform beta chistogram

syntax match declNumber "\%(\d\+\.\=\d*\|\.\d\+\)%\="
syntax match declNumber "\d\+/\d\+"
syntax match declSign "[][:,!]"
syntax match declName "[A-Za-z][A-Za-z0-9_-]*" contained
syntax match declReference "\<sev\.[A-Za-z][A-Za-z0-9_-]*"
syntax match declComment "#.*$" contains=@Spell
syntax region declNote start="\<note{" end="}" contains=@Spell

highlight default link declDeclare Statement
highlight default link declCount Type
highlight default link declWord Keyword
highlight default link declRefused Error
highlight default link declNumber Number
highlight default link declSign Delimiter
highlight default link declName Identifier
highlight default link declReference Identifier
highlight default link declComment Comment
highlight default link declNote String

let b:current_syntax = "decl"
let &cpo = s:cpo
unlet s:cpo
