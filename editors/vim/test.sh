#!/bin/sh
# Checks the detection, the colours and the indentation in a vim without other settings. Run by hand; needs vim.
here=$(cd "$(dirname "$0")" && pwd) || exit 1
there=$(mktemp -d) || exit 1
trap 'rm -rf "$there"' EXIT
cd "$there" || exit 1

cat >colours.th <<'END'
; a comment with (brackets
(theory square)
(def twice ((n (int 0 9)) (s (set (pair bool (int 0 3))))) (int -18 018) (add n n))
(input s (map (int 0 100) (set bool)))
(require (all x (set 1 true) (if (le (wcard -5) +2) a-word-with-add in)))
(output Bad (seq
  (int 1 10) 4))
(ensure (eq (mul z z) n)))
END
cat >proved.th <<'END'
(theory proved)
(require true)
(law some-law ((v (seq (int 0 9) 3))) (given (eq (at v 1 0) 2)) (holds (le 0 (at v 1 0)))
  (by
    (have m1 (v))
    (copy 2 (at () e13) (back (0) (use 2)) (at ( 0 ) unfold))))
END
printf '(match range)\n' >range.sc
printf '; by hand\n\n(program 1)\n(main (for x s (let y x) (emit y) (call filter e12)))\n' >hand.prog
printf '(match range (low high) 1 10 (by))\n' >square.der
printf "(program 2)\n(input c (set (enum blue red)))\n(output first (enum enum))\n(first 3)\n(main (emit 'red) (call (in 'Red c)))\n" >tags.prog
printf '(\nSynthDef("x")\n)\n' >other.sc
printf 'not of kids\n' >other.prog
printf '(theory x)\n; \303\251 x\n' >bytes.th
printf '(theory x)\n' >form.kids
cp "$here"/../../examples/run/words.prog "$here"/../../examples/halves-of-members/halves.th .

cat >check.vim <<'END'
" The group of the first place of a word in a line.
function! Group(line, word) abort
  let column = stridx(getline(a:line), a:word) + 1
  return column ? synIDattr(synID(a:line, column, 1), 'name') : 'no such word'
endfunction

function! Groups(file, wanted) abort
  execute 'edit' a:file
  call assert_equal('kids', &filetype, a:file)
  for [line, word, group] in a:wanted
    call assert_equal(group, Group(line, word), a:file . ' line ' . line . ': ' . word)
  endfor
endfunction

call Groups('colours.th', [[1, 'brackets', 'kidsComment'], [1, '(', 'kidsComment'], [2, '(', 'kidsBracket'],
  \ [2, 'theory', 'kidsForm'], [2, 'square', 'kidsDeclared'], [3, 'twice', 'kidsDeclared'], [3, 'n (', 'kidsParameter'],
  \ [3, 'int', 'kidsSort'], [3, '9', 'kidsNumber'], [3, 's (', 'kidsParameter'], [3, 'set', 'kidsSort'],
  \ [3, 'pair', 'kidsSort'], [3, 'bool', 'kidsSort'], [3, '-18', 'kidsNumber'], [3, '018', 'kidsBadNumber'],
  \ [3, 'add', 'kidsOperator'], [3, 'n n', 'kidsName'], [4, 'map', 'kidsSort'], [4, 'set', 'kidsSort'],
  \ [5, 'require', 'kidsForm'], [5, 'all', 'kidsBinder'], [5, 'x', 'kidsBound'], [5, 'set', 'kidsOperator'],
  \ [5, 'true', 'kidsBoolean'], [5, 'if', 'kidsConditional'], [5, 'wcard', 'kidsOperator'], [5, '-5', 'kidsNumber'],
  \ [5, '+2', 'kidsBadNumber'], [5, 'a-word', 'kidsName'], [5, 'word-with', 'kidsName'], [5, 'in)', 'kidsOperator'],
  \ [6, 'Bad', 'kidsBadWord'], [6, 'seq', 'kidsSort'], [8, 'n))', 'kidsName'], [8, ')))', 'kidsBracket']])
call assert_equal('kidsBadBracket', synIDattr(synID(8, 26, 1), 'name'), 'a bracket that closes none')
call Groups('proved.th', [[3, 'law', 'kidsForm'], [3, 'some-law', 'kidsDeclared'], [3, 'given', 'kidsForm'],
  \ [3, 'at v', 'kidsOperator'], [3, 'holds', 'kidsForm'], [4, 'by', 'kidsForm'], [5, 'have', 'kidsMove'],
  \ [5, 'm1', 'kidsRule'], [6, 'copy', 'kidsMove'], [6, 'at () e', 'kidsMove'], [6, 'e13', 'kidsRule'],
  \ [6, 'back', 'kidsMove'], [6, 'use', 'kidsRule'], [6, 'at ( 0', 'kidsMove'], [6, 'unfold', 'kidsRule']])
call Groups('range.sc', [[1, 'match', 'kidsForm'], [1, 'range', 'kidsOperator']])
call Groups('square.der', [[1, 'low', 'kidsName'], [1, 'by', 'kidsForm']])
call Groups('form.kids', [[1, 'theory', 'kidsForm']])
call Groups('new.th', [])
call Groups('bytes.th', [[2, ';', 'kidsComment'], [2, 'x', 'kidsComment']])
call assert_equal('kidsBadByte', synIDattr(synID(2, 3, 1), 'name'), 'a byte that no file may have')
call Groups('hand.prog', [[3, '1', 'kidsNumber'], [4, 'main', 'kidsForm'], [4, 'for', 'kidsRepeat'],
  \ [4, 'x', 'kidsBound'], [4, 'let', 'kidsStatement'], [4, 'y', 'kidsBound'], [4, 'emit', 'kidsStatement'],
  \ [4, 'filter', 'kidsReserved'], [4, 'e12', 'kidsRule']])
call Groups('tags.prog', [[2, 'set', 'kidsSort'], [2, 'enum', 'kidsSort'], [2, 'blue', 'kidsName'], [3, 'first', 'kidsDeclared'],
  \ [3, 'enum enum', 'kidsSort'], [3, 'enum)', 'kidsName'], [4, 'first', 'kidsForm'], [5, "'red", 'kidsTag'], [5, "'Red", 'kidsBadWord']])
call assert_equal(';\ %s', escape(&commentstring, ' '))
edit other.sc
call assert_notequal('kids', &filetype, 'another use of .sc')
edit other.prog
call assert_notequal('kids', &filetype, 'another use of .prog')

" what tools/explain says is a list of errors
call writefile(['(theory x)', '(require (le 1 2)', '(output z bool)'], 'open.th')
edit open.th
set shellpipe=>%s\ 2>&1
silent make!
let errors = filter(getqflist(), 'v:val.valid')
call assert_true(len(errors) > 2, 'a list of errors')
call assert_equal([2, 1], empty(errors) ? [] : [errors[0].lnum, errors[0].col], 'the bracket that is not closed')

" to indent what is indented changes nothing, and a word has its dashes
for file in ['words.prog', 'proved.th', 'halves.th']
  execute 'edit!' file
  let before = getline(1, '$')
  execute '%left'
  normal! gg=G
  call assert_equal(before, getline(1, '$'), file)
endfor
call assert_equal(4, search('has-twice'), 'the line of the definition')
call assert_equal('has-twice', expand('<cword>'))
set nomodified
call writefile(v:errors, 'errors')
execute empty(v:errors) ? 'qall!' : 'cquit'
END

vim -es -N -u NONE -i NONE --cmd "set runtimepath^=$here" -c 'filetype plugin indent on' -c 'syntax on' -S check.vim
status=$?
[ -f errors ] && cat errors
[ "$status" -eq 0 ] && [ -f errors ] && echo "the files for vim do as they should"
