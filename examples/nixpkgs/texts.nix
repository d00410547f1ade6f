# 400 texts that take nothing but the start of a shell: 20 chains of 20.
{ mirror, full ? true }:
let
  numbers = builtins.genList (n: n) 20;
  text = name: words: derivation {
    inherit name;
    system = "x86_64-linux";
    builder = "/bin/sh";
    args = [ "-c" "echo ${words} >$out" ];
  };
  next = chain: before: n: text "text-${toString chain}-${toString n}" before;
in {
  built = map (chain: builtins.foldl' (next chain) "chain ${toString chain}" numbers) numbers;
}
