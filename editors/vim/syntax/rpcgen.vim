" Vim syntax file
" Language: the Sun RPC language (rpcgen: RFC 4506, RFC 5531)
"
" Vim has a file of this name, which begins with all of C. In the user's folder this one comes before it, and
" takes its place. The two groups that both have keep their names: rpcPassThru and rpcStatement.
if exists('b:current_syntax')
  finish
endif
let s:cpo = &cpo
set cpo&vim

syn case match
syn iskeyword a-z,A-Z,48-57,_

syn keyword rpcStatement case default switch typedef
syn keyword rpcStatement enum program struct union version nextgroup=rpcName skipwhite
syn keyword rpcStatement const nextgroup=rpcConstant skipwhite
syn keyword rpcType bool double float hyper int long opaque quadruple string unsigned void
syn keyword rpcBoolean TRUE FALSE

" An inline union has no name: `union switch (..)`.
syn match rpcName contained "\%(switch\>\)\@!\h\w*"
syn match rpcConstant contained "\h\w*"

" What begins as a number does is one word, also where it is none. Of two that fit, the last one counts.
syn match rpcNumberError "-\=\<\d\w*"
syn match rpcNumber "-[1-9]\d*\>"
syn match rpcNumber "\<\%([1-9]\d*\|0\o*\|0[xX]\x\+\)\>"

syn region rpcBlock start="{" end="}" transparent fold

syn keyword rpcTodo contained TODO FIXME XXX
syn region rpcComment start="/\*" end="\*/" contains=rpcTodo,@Spell fold

" A line that goes into the C text as it is: no comment begins in it.
syn match rpcPassThru "^%.*$"

" A line of the C preprocessor ends at its end, or at a comment that goes on behind it: what comes after that
" is read again.
syn region rpcDirective start="^\s*#" skip="\\$" end="$" end="/\*\%(.*\*/\)\@!"me=s-1
    \ contains=rpcDirectiveComment
syn match rpcDirectiveComment contained "/\*.\{-}\*/" contains=rpcTodo,@Spell
syn match rpcDirectiveComment contained "//.*" contains=rpcTodo,@Spell

syn sync ccomment rpcComment minlines=50

hi def link rpcStatement Statement
hi def link rpcType Type
hi def link rpcBoolean Boolean
hi def link rpcName Identifier
hi def link rpcConstant Constant
hi def link rpcNumber Number
hi def link rpcNumberError Error
hi def link rpcTodo Todo
hi def link rpcComment Comment
hi def link rpcDirectiveComment Comment
hi def link rpcPassThru PreProc
hi def link rpcDirective PreProc

let b:current_syntax = 'rpcgen'
let &cpo = s:cpo
unlet s:cpo
