# What Nix refuses or fails, as functions of a name.
{ system, fetch, zlib }:
let
  with-more = more: name: text: derivation ({
    inherit name system;
    builder = "/bin/sh";
    args = [ "-euc" "PATH=/usr/bin:/bin\n${text}\n:" ];
  } // more);
  run = with-more { };
  hash = algo: hash: mode: { outputHash = hash; outputHashAlgo = algo; outputHashMode = mode; };
  note = hash "sha256" fetch.hashes.note.sha256 "flat";
  text = "echo 'A note that is fetched.' >$out";
in {
  exit = name: run name "echo made >$out; exit 3";
  exit-large = name: run name "exit 255";
  killed = name: run name "echo made >$out; kill -9 $$";
  aborted = name: run name "kill -ABRT $$";
  missing = name: run name ":";
  missing-one = name: with-more { outputs = [ "out" "dev" ]; } name "echo >$out";
  cycle = name: with-more { outputs = [ "out" "dev" ]; } name "echo $dev >$out; echo $out >$dev";
  cycle-of-three = name: with-more { outputs = [ "a" "b" "out" ]; } name "echo $b >$a; ln -s $out $b; mkdir $out; echo >$out/$(basename $a)";
  wrong = name: with-more (note) name "echo another >$out";
  wrong-md5 = name: with-more (hash "md5" fetch.hashes.note.md5 "recursive") name text;
  wrong-sha512 = name: with-more (hash "sha512" fetch.hashes.note.sha512 "recursive") name text;
  wrong-tree = name: with-more (hash "sha1" fetch.hashes.tree.sha1 "recursive") name "mkdir $out; echo >$out/x";
  no-hash = name: with-more (hash "sha256" "" "flat") name text;
  flat-folder = name: with-more note name "mkdir $out";
  flat-link = name: with-more note name "ln -s /dev/null $out";
  flat-executable = name: with-more note name "${text}; chmod 744 $out";
  fixed-refers = name: with-more
    (hash "sha256" (builtins.hashString "sha256" (builtins.unsafeDiscardStringContext "${zlib}")) "flat")
    name "printf %s ${zlib} >$out";
  fetch-missing = name: fetch.fetchurlBoot { inherit name; file = "absent"; hash = fetch.hashes.note.sha256; };
  fetch-wrong = name: fetch.fetchurlBoot { inherit name; file = "note.txt"; hash = fetch.hashes.tar.sha256; };
  fetch-flat-executable = name: fetch.fetchurlBoot {
    inherit name;
    file = "note.txt";
    hash = fetch.hashes.note.sha256;
    more = { executable = true; };
  };
  fetch-no-nar = name: fetch.fetchurlBoot { inherit name; file = "note.txt"; unpack = true; hash = fetch.hashes.tree.sha256; };
  builtin-unknown = name: derivation { inherit name system; builder = "builtin:unknown"; };
  builtin-system = name: derivation { inherit name; system = "builtin"; builder = "/bin/sh"; args = [ "-c" "echo >$out" ]; };
  other-system = name: derivation { inherit name; system = "aarch64-linux"; builder = "/bin/sh"; args = [ "-c" "echo >$out" ]; };
  feature = name: with-more { requiredSystemFeatures = [ "big-parallel" "a-feature-of-no-machine" ]; } name "echo >$out";
  no-builder = name: derivation { inherit name system; builder = "/no/such/builder"; };
  not-executable = name: derivation { inherit name system; builder = ./mirror/note.txt; };
  folder-as-builder = name: derivation { inherit name system; builder = zlib; };
  no-interpreter = name: derivation { inherit name system; builder = run "script" "echo '#!/no/such/shell' >$out; chmod +x $out"; };
  no-format = name: derivation { inherit name system; builder = run "no-format" "echo 'echo made >$out' >$out; chmod +x $out"; };
  relative = name: derivation { inherit name system; builder = "sh"; args = [ "-c" "echo >$out" ]; };
  too-long = name: with-more { long = builtins.concatStringsSep "" (builtins.genList (_: "0123456789abcdef") 9000); } name "echo >$out";
  pipe = name: run name "mkdir $out; mkfifo $out/pipe";
  socket = name: run name "mkdir $out; python3 -c 'import socket, os; socket.socket(socket.AF_UNIX).bind(\"s\")'; mv s $out/s";
  open-to-group = name: run name "echo >$out; chmod 664 $out";
  open-to-all = name: run name "mkdir $out; chmod 757 $out";
  open-beside = name: with-more { outputs = [ "out" "dev" ]; } name "echo >$out; echo >$dev; chmod 666 $dev";
}
