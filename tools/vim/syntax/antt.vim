" The language of definitions and proofs.
if exists("b:current_syntax")
  finish
endif

syntax keyword anttWord abbrev as data else if in let module mutual of pub record then use where
syntax keyword anttWord unfoldable unfolding with
syntax keyword anttTactic arith grind omega rules search simp
syntax match anttType "\<\u[A-Za-z0-9_]*\>"
syntax match anttNumber "\<\d[0-9_]*\>"
syntax match anttLogic "[λ→×⊎≡≤∷∙ℕ⊥◌]\|++"
syntax region anttString start=+"+ skip=+\\.+ end=+"+
syntax match anttComment "--.*$"

highlight default link anttWord Keyword
highlight default link anttTactic PreProc
highlight default link anttType Type
highlight default link anttNumber Number
highlight default link anttLogic Operator
highlight default link anttString String
highlight default link anttComment Comment

let b:current_syntax = "antt"
