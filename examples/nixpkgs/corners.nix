# What builders are given and what they may leave, by /bin/sh and the machine's own tools.
{ system, fetch, zlib }:
let
  inherit (builtins) placeholder toFile;
  with-more = more: name: text: derivation ({
    inherit name system;
    builder = "/bin/sh";
    # A last program that closes the log would be killed by Nix 2.8, so the shell ends by itself.
    args = [ "-euc" "${text}\n:" ];
    PATH = "/usr/bin:/bin";
  } // more);
  one = with-more { };
  # The environment, with another word for the build folder, which no run promises.
  environment = ''env -0 | sort -z | tr '\0\n' '\n\1' | sed "s|$TMPDIR|BUILD|g" >$out'';
  part = path: "$(basename ${path} | head -c 32)";
  repeat = count: text: builtins.concatStringsSep "" (builtins.genList (_: text) count);
  passed = more: with-more ({ outputs = [ "out" "dev" ]; } // more) "passed" ''
    mkdir $out $dev
    cp -r "$TMPDIR/." $out
    env | sed "s|$TMPDIR|BUILD|g" | sort >$dev/env
  '';
in rec {
  # The builder's start.
  environment-plain = with-more {
    foo = "bar";
    list = [ "a" "b c" 1 true null ];
    yes = true;
    no = false;
    nothing = null;
    text = "two\nlines\tand \"quotes\", \\ and $dollars, äöü → 𝄞";
    "odd.key-1" = "odd";
    impureEnvVars = [ "COMPARE_PROXY" ];
  } "environment-plain" environment;
  environment-own = with-more (builtins.listToAttrs (map (name: { inherit name; value = "own"; }) [
    "HOME" "NIX_STORE" "NIX_BUILD_CORES" "NIX_BUILD_TOP" "TMP" "TEMP" "TEMPDIR" "PWD" "OLDPWD" "TERM" "NIX_LOG_FD"
    "NIX_OUTPUT_CHECKED" "NIX_ATTRS_SH_FILE" "SHLVL" "USER" "LANG"
  ])) "environment-own" environment;
  environment-none = derivation {
    name = "environment-none";
    inherit system;
    builder = "/bin/bash";
    args = [ "-c" "echo $PATH $HOME $NIX_STORE $NIX_BUILD_CORES $TERM $NIX_LOG_FD $SHLVL >$out" ];
  };
  start = one "start" ''
    files=$(ls -A; ls /proc/self/fd | wc -l)
    logs=$(readlink /proc/$$/fd/1 /proc/$$/fd/2 | sort -u | wc -l)
    {
      echo "umask $(umask), mode $(stat -c %a .), limit $(ulimit -c), logs $logs, $files"
      [ "$PWD" = "$TMPDIR" ] && [ "$(readlink -f .)" = "$TMPDIR" ] && echo in the build folder
      case $TMPDIR in $NIX_STORE/*) echo below the store ;; esac
      cat
      readlink /proc/self/fd/0
    } >$out
  '';
  # Of the signals with names; the C library's own two are ignored in each process that it starts.
  signals = one "signals" ''
    for set in $(sed -n 's/^Sig[BI].*\t//p' /proc/self/status); do echo $((0x$set & 0x7fffffff)); done >$out
  '';
  words = derivation {
    name = "words";
    inherit system;
    builder = "/bin/bash";
    args = [ "-c" ''printf '<%s>\n' "$0" "$@" >$out'' "zero" "" " " "a\nb" "-n" "ä\t'\"\\$" ]
      ++ builtins.genList toString 2000;
  };
  # By what a script and a link in the store are started: the word before the arguments.
  started-as = derivation {
    name = "started-as";
    inherit system;
    builder = with-more { script = "#!/bin/bash\n/bin/cat /proc/$$/cmdline \"$0\" >$out\n:\n"; passAsFile = "script"; }
      "starter" "cat $scriptPath >$out; chmod +x $out";
  };
  started-by-link = derivation {
    name = "started-by-link";
    inherit system;
    builder = one "shell" "ln -s /bin/bash $out";
    args = [ "-c" "echo \"$0 $BASH\" >$out; /bin/cat /proc/$$/cmdline >>$out; :" ];
  };
  noisy = one "noisy" "head -c 3000000 /dev/zero | tr '\\0' n; seq 20000 >&2; echo quiet >$out";

  # Placeholders, in arguments, values, keys and files; not those of others.
  placeholders = derivation {
    name = "placeholders";
    inherit system;
    outputs = [ "out" "dev" "lib" ];
    builder = "/bin/bash";
    PATH = "/usr/bin:/bin";
    value = "x${placeholder "out"}y${placeholder "out"}${placeholder "dev"}/z";
    foreign = placeholder "man";
    half = builtins.substring 0 40 (placeholder "out");
    "key${placeholder "dev"}" = "value ${placeholder "lib"}";
    file = "in a file: ${placeholder "lib"}/lib and ${placeholder "doc"}\n";
    passAsFile = [ "file" "key${placeholder "dev"}" ];
    args = [ "-euc" ''
      mkdir $out $dev $lib
      printf '%s\n' "$@" >${placeholder "out"}/words
      env | sort | sed "s|$TMPDIR|BUILD|g" >${placeholder "out"}/env
      cat $filePath >$dev/file
      ls -A >$lib/names
      cat .attr-* >$lib/all
      :
    '' "zero" (placeholder "lib") "--prefix=${placeholder "out"}:${placeholder "dev"}" (placeholder "bin") ];
  };
  placeholder-only = derivation {
    name = "placeholder-only";
    inherit system;
    builder = "/bin/sh";
    args = [ "-c" "echo made > ${placeholder "out"}" ];
  };

  # passAsFile.
  passed-some = passed { a = "text a"; b = "no newline"; empty = ""; passAsFile = [ "a" "empty" "absent" ]; };
  passed-itself = passed { a = "text\n"; passAsFile = "a passAsFile"; };
  passed-out = with-more { outputs = [ "out" "dev" ]; passAsFile = [ "dev" ]; } "passed-out"
    "echo $(cat $devPath) >$out; echo dev >$(cat $devPath)";
  passed-shadow = passed { foo = "one"; fooPath = "own"; passAsFile = "foo"; };
  passed-both = passed { foo = "one"; fooPath = "two"; passAsFile = " foo\t fooPath\n"; };
  passed-large = with-more { large = repeat 20000 "0123456789abcdef"; passAsFile = [ "large" ]; } "passed-large" "cp $largePath $out";
  passed-mode = with-more { a = "a"; passAsFile = "a"; } "passed-mode" "stat -c %a $aPath >$out";

  # Outputs: kinds, modes, names, links, and many.
  modes = one "modes" ''
    mkdir -p $out/folder/open $out/folder/closed $out/folder/sticky
    for mode in 000 100 400 444 511 555 600 644 654 645 666 700 755 777; do
      echo $mode >$out/$mode; chmod $mode $out/$mode
    done
    echo in >$out/folder/closed/file
    ln -s 700 $out/link
    ln $out/755 $out/folder/hard
    chmod 777 $out/folder/open; chmod 500 $out/folder/closed; chmod 1755 $out/folder/sticky
    touch -d 2001-01-01 $out/644 $out/folder
  '';
  executable = one "executable" "echo run >$out; chmod 700 $out";
  read-only = one "read-only" "mkdir $out; echo x >$out/x; chmod 400 $out/x; chmod 500 $out";
  empty = one "empty" ": >$out";
  empty-folder = one "empty-folder" "mkdir $out";
  link = one "link" "ln -s ${zlib}/lib $out";
  dangling = one "dangling" "ln -s ../nothing $out";
  loop = one "loop" "ln -s $out $out";
  names = one "names" ''
    mkdir $out; cd $out
    for name in b a B A -x .h a.b ab 'a b' a1 _ '~' '*' ä 𝄞 "$(printf 'new\nline')" "$(printf 'tab\tand\001')" '"' "'" '\' ${repeat 255 "n"}; do
      echo "$name" >./"$name"
    done
    mkdir a- a+; echo 1 >a-/a; echo 2 >a+/a; ln -s -- '-> *' arrow
    ln -s ${repeat 4000 "t"} long
  '';
  deep = one "deep" ''
    below=$out$(printf '/d%.0s' $(seq 1500))
    mkdir -p $below
    echo ${zlib} >$below/bottom; ln -s ../../.. $below/up
  '';
  large = one "large" ''
    mkdir $out
    { head -c 70000000 /dev/zero; echo ${zlib.dev}; } >$out/data
    head -c 67108864 /dev/zero >$out/exact; chmod +x $out/exact
  '';
  many = one "many" ''
    mkdir $out; cd $out
    for part in $(seq 70); do mkdir $part; (cd $part; seq 950 | xargs touch; ln -s $part self); done
  '';
  hard-links = with-more { outputs = [ "out" "dev" ]; } "hard-links" ''
    mkdir $out $dev; echo one >$out/a; ln $out/a $out/b; ln $out/a $dev/c; chmod 755 $out/a
  '';
  sparse = one "sparse" "truncate -s 3000001 $out";
  outputs-without-out = with-more { outputs = [ "lib" "bin" ]; } "without-out" "mkdir $lib; ln -s $lib $bin";
  outputs-in-chain = with-more { outputs = [ "z" "out" "a" "m" ]; } "chain" ''
    echo $out $out >$z; mkdir $out; echo $a >$out/f; ln -s $out $out/own; echo $m >$a; echo end >$m
  '';
  uses-one-output = one "uses-one-output" "cat ${outputs-in-chain.a} ${outputs-without-out.bin} 2>/dev/null >$out || echo folder >$out";
  left-over = one "left-over" "mkdir -p a/b; chmod 500 a/b a; echo x >$out";
  stays-below = one "stays-below" "mkdir $out; mkdir $out/dir; echo 1 >$out/dir/f; chmod 555 $out/dir $out; cd /; echo done";

  # References.
  finds-source = one "finds-source" "cp ${./mirror/package}/README $out; chmod u+w $out; echo ${./mirror/package} >>$out";
  copied-source = one "copied-source" "cp -r ${./mirror/package} $out";
  filtered = one "filtered" "ls -lR ${builtins.filterSource (path: _: baseNameOf path != "src") ./mirror/package} | tail -n +2 | wc -l >$out";
  by-hash = one "by-hash" "cp ${builtins.path { path = ./mirror/note.txt; name = "by-hash.txt"; recursive = false; sha256 = fetch.hashes.note.sha256; }} $out";
  # A source that is an output, too: Nix need not build that.
  source-and-output = one "source-and-output" "echo ${builtins.path { path = ./mirror/package; name = "tree-sha256"; }} ${fetch.all.tree-sha256} >$out";
  text-with-references = one "text-with-references" "ln -s ${toFile "two" "refers to ${toFile "one" "one\n"} alone\n"} $out";
  closure-only = one "closure-only" "cat ${toFile "outer" "${toFile "inner" "inner"}\n"} >$out; cat $(cat $out) >>$out";
  in-a-name = one "in-a-name" "mkdir $out; echo x >$out/${part zlib}";
  in-a-target = one "in-a-target" "ln -s x${part zlib}y $out";
  in-upper-case = one "in-upper-case" "echo ${part zlib} | tr a-z A-Z >$out";
  in-parts = one "in-parts" ''
    mkdir $out; part=${part zlib}
    printf %.16s $part >$out/a; printf %s ''${part#????????????????} >$out/b; mkdir $out/''${part%?}
  '';
  at-edges = one "at-edges" ''
    mkdir $out
    for edge in 4096 8192 16384 32768 65536 131072 262144 1048576 4194304; do
      for before in 1 16 31 32 33; do
        { head -c $((edge - before)) /dev/zero; echo ${part zlib}; } >$out/$edge-$before
        rm -f $out/last; cp $out/$edge-$before $out/last
      done
    done
    { head -c 1048560 /dev/zero; printf %s ${part zlib.dev}; head -c 1048560 /dev/zero; printf %s ${part zlib.static}; } >$out/two
  '';
  only-at-edge = one "only-at-edge" "{ head -c 65520 /dev/zero; printf %s ${part zlib}; } >$out";
  only-at-second = one "only-at-second" "{ head -c 131071 /dev/zero; printf %s ${part zlib}; } >$out";
  almost = one "almost" "p=${part zlib}; printf '%se%s' \${p%?} \${p#?} >$out; printf %s \${p%?} >>$out";
  not-permitted = one "not-permitted" "cat ${toFile "names" (builtins.unsafeDiscardStringContext "${zlib} ${zlib.dev}")} >$out; echo ${zlib.static} >>$out";
  own-name = one "own-name" "mkdir $out; echo x >$out/$(basename $out)";
  own-drv = one "own-drv" "ln -s ${builtins.unsafeDiscardOutputDependency zlib.drvPath} $out";
  own-drv-deep = one "own-drv-deep" "echo ${fetch.busybox.drvPath} ${fetch.busybox} >$out; cat ${fetch.busybox.drvPath} | wc -c >>$out";

  # Only words on one machine.
  local = with-more { preferLocalBuild = true; allowSubstitutes = false; __noChroot = true; __impureHostDeps = [ "/dev/null" ]; } "local" "echo local >$out";
  "name+with-._?=all" = one "name+with-._?=all" "echo name >$out";
  long-name = one (repeat 180 "n") "echo long >$out";
}
