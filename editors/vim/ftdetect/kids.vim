" Theories, scripts, programs and derivations of kids. The endings .sc, .prog and .der have other uses too, so there the
" first form decides; .th and .kids may be empty still.
function! s:Detect(may_be_empty, words) abort
  for line in getline(1, 200)
    if line =~# '^\s*\%(;.*\)\=$'
      continue
    endif
    if line =~# '^\s*(\s*\%(' . a:words . '\)\%([ \t\r()]\|$\)'
      set filetype=kids
    endif
    return
  endfor
  if a:may_be_empty
    setfiletype kids
  endif
endfunction

augroup kids_detect
  autocmd!
  autocmd BufRead,BufNewFile *.th call s:Detect(1, 'theory')
  autocmd BufRead,BufNewFile *.kids call s:Detect(1, 'program\|theory\|match')
  autocmd BufRead,BufNewFile *.prog call s:Detect(0, 'program')
  autocmd BufRead,BufNewFile *.sc,*.der call s:Detect(0, 'match')
augroup END
