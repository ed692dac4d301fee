" Vim syntax of .antt files, and abbreviations for their signs.
if exists("b:current_syntax")
  finish
endif

syntax keyword anttKeyword use pub record data where let in open mutual module abbrev opaque unfoldable by
syntax keyword anttType Type List Option Bool
syntax keyword anttConstructor Some None Ok Err true false
syntax match anttSign "[≡≢≤≥λ∷×⊎→⊤⊥◌]"
syntax match anttType "[ℕℤ]"
syntax match anttDefinition "^\(pub \|abbrev \|unfoldable \|opaque \)*[^ :{}()-][^ :{}()]*\ze\( *{[^}]*}\)* *:"
syntax match anttComment "--.*$"
syntax match anttNumber "\<\d\+\>"

highlight default link anttKeyword Keyword
highlight default link anttType Type
highlight default link anttConstructor Constant
highlight default link anttSign Operator
highlight default link anttDefinition Function
highlight default link anttComment Comment
highlight default link anttNumber Number

setlocal commentstring=--\ %s textwidth=100 expandtab shiftwidth=2
inoremap <buffer> \== ≡
inoremap <buffer> \/= ≢
inoremap <buffer> \<= ≤
inoremap <buffer> \>= ≥
inoremap <buffer> \l λ
inoremap <buffer> \:: ∷
inoremap <buffer> \x ×
inoremap <buffer> \u ⊎
inoremap <buffer> \-> →
inoremap <buffer> \t ⊤
inoremap <buffer> \f ⊥
inoremap <buffer> \n ℕ
inoremap <buffer> \z ℤ
inoremap <buffer> \o ◌

let b:current_syntax = "antt"
