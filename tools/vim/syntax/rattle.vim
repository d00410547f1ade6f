" Rattle is Rust with contracts: what Vim knows of Rust, and the words of contracts.
if exists("b:current_syntax")
  finish
endif

runtime! syntax/rust.vim

syntax keyword rattleContract ghost requires ensures
syntax match rattleLogic "[λ→×⊎≡≤∷∙ℕ⊥]"

highlight default link rattleContract PreProc
highlight default link rattleLogic Operator

let b:current_syntax = "rattle"
