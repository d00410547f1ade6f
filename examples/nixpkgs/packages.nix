# Packages by the last stdenv, and what is made of them.
{ stdenv, final, fetch, trivial }:
with trivial;
rec {
  inherit (final) zlib binutils gmp mpfr glibc gcc cc;

  wrapperHook = makeSetupHook "make-wrapper-hook" { } ./wrapper-hook.sh;
  # A hook that brings another along.
  bothHooks = makeSetupHook "both-hooks" { propagated = wrapperHook; } (writeText "both-hook.sh" ''
    sawBoth() { echo both >.both; }
    fixupOutputHooks+=(sawBoth)
  '');

  hello = final.build "hello" "2.12" {
    outputs = [ "out" "doc" "man" "debug" ];
    buildInputs = [ zlib mpfr ];
    nativeBuildInputs = [ cc bothHooks ];
    configureFlags = [ "--with-doc=${builtins.placeholder "doc"}" "--with-prefix=${builtins.placeholder "out"}" ];
    docDir = "${builtins.placeholder "doc"}/share/doc";
    installPhase = ''
      bash -eu install.sh
      grep "with doc=$doc" config
      mkdir -p $docDir $man/share/man/man1 $debug
      mv $out/share/doc/hello $docDir
      rm -r $out/share
      echo "see $doc" >$man/share/man/man1/hello.1
      echo "symbols of $out/bin/hello" >$debug/hello.debug
      wrapProgram $out/bin/hello MANPATH=$man/share/man
    '';
  };
  curl = final.build "curl" "7.83" { outputs = [ "bin" "dev" "out" ]; buildInputs = [ zlib ]; installPhase = ''
    bash -eu install.sh
    mkdir -p $bin
    mv $out/bin $bin/bin
  ''; };
  python = final.build "python3" "3.9.12" { buildInputs = [ zlib curl ]; postFixup = "none"; };
  perl = final.build "perl" "5.34.1" { };
  openssl = final.build "openssl" "1.1.1n" { outputs = [ "bin" "dev" "out" "man" "doc" ]; installPhase = ''
    bash -eu install.sh
    mkdir -p $bin $man/share $doc
    mv $out/bin $bin/bin
    mv $out/share/doc $doc/doc
    ln -s $doc/doc $man/share/doc
  ''; };
  git = final.build "git" "2.36" {
    buildInputs = [ curl openssl zlib ];
    nativeBuildInputs = [ wrapperHook ];
    NIX_LDFLAGS = "-L${openssl.out}/lib";
    phases = "unpackPhase configurePhase buildPhase installPhase fixupPhase wrapPhase";
    wrapPhase = "wrapProgram $out/bin/git PATH=${curl.bin}/bin:${perl}/bin";
  };
  # Built from what was unpacked by a recursive hash, and from a source of this folder.
  fromTree = final.build "from-tree" "1.2" { src = fetch.all."tree-sha256"; sourceRoot = "source"; };
  fromSource = final.build "from-source" "1.2" { src = ./mirror/package; sourceRoot = "source"; };
  fromTwin = final.build "from-twin" "1.2" { src = fetch.all.twin; };
  # The same text as fromTwin but for the source's derivation: the same output.
  fromOther = final.build "from-twin" "1.2" { src = fetch.package; };
  afterTwins = runCommand "after-twins" { } "cat ${fromTwin}/bin/from-twin ${fromOther}/bin/from-twin >$out";

  text = writeText "text" "A text about ${hello} and ${hello.doc}.\n";
  emptyText = writeText "empty-text" "";
  longText = writeText "long-text" (builtins.concatStringsSep "\n"
    (builtins.genList (number: "line ${toString number} of ${zlib}, which is long enough for a file") 4000));
  script = writeScript "script" ''
    #!${stdenv.shell}
    exec ${hello}/bin/hello 'quotes " and $dollars and \ back' "$@"
  '';
  greet = writeShellScriptBin "greet" "exec ${hello}/bin/hello \"$@\"";
  farm = linkFarm "farm" [
    { name = "hello"; path = hello; }
    { name = "a/deep/link"; path = "${git}/bin/git"; }
    { name = "to nothing"; path = "/no/such/file"; }
  ];
  joined = symlinkJoin { name = "joined"; paths = [ hello git curl.bin greet perl ]; postBuild = "echo joined >$out/note"; };
  joinedAgain = symlinkJoin { name = "joined-again"; paths = [ joined farm ]; };
  config = runCommand "config" { values = builtins.toJSON { port = 80; hosts = [ "a" "b" ]; root = "${joined}"; }; passAsFile = [ "values" ]; } ''
    cp $valuesPath $out
  '';
  substituted = runCommand "substituted" { inherit hello git; template = builtins.toFile "template" "@hello@ and @git@\n"; } ''
    sed "s|@hello@|$hello|; s|@git@|$git|" $template >$out
  '';
  bigParallel = runCommand "big-parallel" { requiredSystemFeatures = [ "big-parallel" "benchmark" ]; } "echo big >$out";
  service = name: package: writeText "unit-${name}.service" ''
    [Unit]
    Description=${name}
    [Service]
    ExecStart=${package}/bin/${name} --config ${config}
  '';
}
