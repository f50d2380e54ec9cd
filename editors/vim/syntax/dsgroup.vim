" Vim syntax of scripts for dsgroup. A line that is none of the language's is shown as an error.

if exists("b:current_syntax")
  finish
endif

syn case match

syn match dsgroupWrong   "^.*$"
syn match dsgroupComment "^ *#.*$"

syn match dsgroupPhase "^ *\(groupfail\|phase\|restart\) *\r\=$"
syn match dsgroupPhase "^ *member \+\d\{1,20} *\r\=$" contains=dsgroupNumber
syn match dsgroupFail  "^ *fail \+\(command\|commit\|committed\|raise\) \+\d\{1,20} *\r\=$" contains=dsgroupNumber
syn match dsgroupTran  "^ *tran \+[A-Za-z0-9_-]\{1,16}\( \+nowait\)\= *\r\=$" contains=dsgroupName,dsgroupNoWait
syn match dsgroupTran  "^ *\(end\|abort\) *\r\=$"
syn match dsgroupRead  "^ *\(get\|getu\)\( \+\d\{1,20}\)\{2} *\r\=$" contains=dsgroupNumber
syn match dsgroupRead  "^ *scan\( \+\d\{1,20}\)\{3} *\r\=$" contains=dsgroupNumber
syn match dsgroupWrite "^ *put\( \+\d\{1,20}\)\{2} \+=[!-~]\{0,100} *\r\=$" contains=dsgroupNumber,dsgroupValue
syn match dsgroupWrite "^ *del\( \+\d\{1,20}\)\{2} *\r\=$" contains=dsgroupNumber
syn match dsgroupFlag  "^ *\(raise\|await\) \+\d\{1,20} *\r\=$" contains=dsgroupNumber
syn match dsgroupFail  "^ *losecache *\r\=$"

syn match dsgroupNumber "\( \)\@1<=\d\{1,20}" contained
syn match dsgroupValue  "\( \)\@1<==[!-~]*" contained
syn match dsgroupName   "\(tran \+\)\@<=[A-Za-z0-9_-]\{1,16}" contained
syn match dsgroupNoWait "\( \)\@1<=nowait\( *\r\=$\)\@=" contained

hi def link dsgroupComment Comment
hi def link dsgroupWrong   Error
hi def link dsgroupPhase   PreProc
hi def link dsgroupFail    Exception
hi def link dsgroupTran    Statement
hi def link dsgroupNoWait  StorageClass
hi def link dsgroupName    Identifier
hi def link dsgroupRead    Function
hi def link dsgroupWrite   Keyword
hi def link dsgroupFlag    Label
hi def link dsgroupNumber  Number
hi def link dsgroupValue   String

let b:current_syntax = "dsgroup"
