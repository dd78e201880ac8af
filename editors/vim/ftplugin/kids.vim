" Editing files of kids: comments, names with dashes, and indentation by brackets.
if exists('b:did_ftplugin')
  finish
endif
let b:did_ftplugin = 1

setlocal comments=:; commentstring=;\ %s
" a dash belongs to a name
setlocal iskeyword=@,48-57,45
setlocal lisp autoindent expandtab shiftwidth=2
" what stands in these is indented by two, and in all else it stands below the first member
setlocal lispwords=theory,def,input,output,require,ensure,axiom,law,program,main,search
setlocal lispwords+=if,for,let,emit,call,all,some,setof,image,sumof,by,have,copy

" :make lists what tools/explain says of the file; :make OTHER names the theory or program beside inputs or a script
let s:explain = fnamemodify(resolve(expand('<sfile>:p')), ':h:h:h:h') . '/tools/explain'
let &l:makeprg = shellescape(s:explain) . ' %:S $*'
setlocal errorformat=%f:%l:%c:\ %m

let b:undo_ftplugin = 'setlocal comments< commentstring< iskeyword< lisp< autoindent< expandtab< shiftwidth< lispwords< makeprg< errorformat<'
