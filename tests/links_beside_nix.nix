# Derivations for `tests/links-beside-nix`: with symbolic links in their outputs, and with trees.
let
  with-more = more: name: outputs: text: derivation ({
    inherit name outputs;
    system = "x86_64-linux";
    builder = "/bin/sh";
    args = [ "-euc" ("PATH=/usr/bin:/bin\n" + text) ];
  } // more);
  run = with-more { };
  one = name: run name [ "out" ];
  # The hash part of a path, as a shell finds it.
  part = path: "$(basename ${path} | head -c 32)";
in {
  # What Nix begins, and what is built on that with a source.
  begun = rec {
    base = one "base" "echo made > $out";
    top = one "top" "echo ${builtins.toFile "greeting" "hello\n"} ${base} $out > $out";
  };

  built = rec {
    # A shared library's links, and a link of one output to another.
    library = run "library" [ "out" "dev" ] ''
      mkdir -p $out/lib $dev/lib $dev/include
      echo code > $out/lib/libx.so.1.2; chmod +x $out/lib/libx.so.1.2
      ln -s libx.so.1.2 $out/lib/libx.so.1; ln -s libx.so.1 $out/lib/libx.so
      ln -s $out/lib/libx.so $dev/lib/libx.so; echo declared > $dev/include/x.h
    '';
    program = one "program" ''
      mkdir -p $out/bin; echo run path ${library}/lib > $out/bin/program
      chmod 700 $out/bin/program; ln -s program $out/bin/alias
    '';

    # Outputs that are links: to a file, to a folder, to nothing, to another output, to themselves.
    to-file = one "to-file" "ln -s ${program}/bin/program $out";
    to-folder = one "to-folder" "ln -s ${library.dev} $out";
    to-nothing = one "to-nothing" ": ${library}; ln -s /no/such/file $out";
    to-output = run "to-output" [ "out" "doc" ] "echo text > $out; ln -s $out $doc";
    to-itself = one "to-itself" "ln -s $out $out";

    # Links in folders: by a relative path, to their own output, under a path's name, odd targets.
    relative = one "relative" "mkdir $out; ln -s ../$(basename ${library})/lib $out/lib";
    own = one "own" "mkdir -p $out/a/b; ln -s $out/none $out/a/b/c; ln -s . $out/a/here";
    names = one "names" "mkdir $out; ln -s x $out/$(basename ${library})";
    text = one "text" "mkdir $out; ln -s 'two words\n' $out/é; ln -s -- - $out/-";

    # A hash part within a target, in other letters, and halves of it that no text has whole.
    within = one "within" "ln -s x${part library}y $out";
    upper = one "upper" "ln -s $(echo ${part library} | tr a-z A-Z) $out";
    split = one "split" ''
      mkdir $out; part=${part library}
      printf %.16s $part > $out/a; ln -s ''${part#????????????????} $out/b
    '';

    # A package of links alone, and a link to that.
    joined = one "joined" ''
      mkdir $out
      for it in ${library} ${library.dev} ${program}; do cp -rst $out $it/*; chmod -R u+w $out; done
    '';
    profile = one "profile" "ln -s ${joined} $out";
  };

  # Trees that the scripts in a file make.
  trees = map (one "tree") (builtins.fromJSON (builtins.readFile (builtins.getEnv "TREES")));

  # What neither builds: a fixed output that is a link, though it leads to the declared content, and
  # two outputs that link to each other.
  refused = {
    flat = with-more {
      outputHashMode = "flat";
      outputHashAlgo = "sha256";
      outputHash = "e3b0c44298fc1c149afbf4c8996fb92427ae41e4649b934ca495991b7852b855";
    } "flat" [ "out" ] "ln -s /dev/null $out";
    cycle = run "cycle" [ "out" "dev" ] "ln -s $dev $out; ln -s $out $dev";
  };
}
