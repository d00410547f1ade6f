# The bootstrap: stages of stdenv, each built by the one before, and the packages of each stage.
{ system, fetch, full }:
rec {
  # What the tools of this machine are called that the builds use.
  toolNames = {
    coreutils = "basename cat chmod cp cut dirname env head ln ls mkdir mkfifo mv od printf pwd "
      + "readlink rm rmdir seq sort stat tail touch tr wc";
    bash = "bash sh";
    findutils = "find xargs";
    gnugrep = "grep";
    gnused = "sed";
    gnutar = "tar";
    gnupatch = "patch";
  };

  bootstrapTools = derivation {
    name = "bootstrap-tools";
    inherit system;
    builder = fetch.busybox;
    args = [ "sh" "-e" ./unpack-bootstrap-tools.sh ];
    tools = builtins.concatStringsSep " " (builtins.attrValues toolNames);
    tarball = fetch.bootstrapTarball;
  };

  # A stage's stdenv, with the function that builds by it.
  makeStdenv = { name, shell, initialPath, defaultBuildInputs ? [ ], preHook ? "", more ? { } }:
    let
      drv = derivation ({
        inherit name system shell initialPath defaultBuildInputs preHook;
        builder = shell;
        args = [ "-e" ./make-stdenv.sh ];
        setup = ./setup.sh;
        propagatedUserEnvPkgs = [ ];
      } // more);
      mkDerivation = attrs: derivation ({
        inherit system;
        name = attrs.name or "${attrs.pname}-${attrs.version}";
        stdenv = drv;
        outputs = [ "out" ];
        builder = shell;
        args = [ "-e" ./default-builder.sh ];
      } // attrs // (
        if attrs ? buildInputs then { buildInputs = map dev attrs.buildInputs; } else { }
      ));
    in drv // { inherit mkDerivation shell; };

  # The output that a build wants of a package, as nixpkgs' getDev.
  dev = package: package.dev or package;

  # What is compiled anew in every stage, all from the same archive.
  packagesBy = stdenv: rec {
    build = pname: version: more: stdenv.mkDerivation ({
      inherit pname version;
      src = fetch.package;
      sourceRoot = "package";
    } // more);
    zlib = build "zlib" "1.2.12" { outputs = [ "out" "dev" "static" ]; postInstall = ''
      mkdir -p $static/lib; echo archive >$static/lib/libz.a
    ''; installPhase = "bash -eu install.sh; eval \"$postInstall\""; };
    binutils = build "binutils" "2.38" { buildInputs = [ zlib ]; configureFlags = "--with-system-zlib"; };
    gmp = build "gmp" "6.2.1" { outputs = [ "out" "dev" ]; };
    mpfr = build "mpfr" "4.1.0" { outputs = [ "out" "dev" ]; propagatedBuildInputs = dev gmp; };
    glibc = build "glibc" "2.34-210" {
      outputs = [ "out" "bin" "dev" "static" ];
      patches = [ ./mirror/readme.patch ];
      installPhase = ''
        prefix=$out bash -eu install.sh
        mkdir -p $bin/bin $static/lib $out/nix-support
        mv $out/bin/* $bin/bin; rmdir $out/bin
        printf '%s' "$out/lib/ld.so.1" >$out/nix-support/dynamic-linker
        echo archive >$static/lib/libc.a
        ln -s $out/lib $static/lib/shared
      '';
    };
    gcc = build "gcc" "11.3.0" {
      outputs = [ "out" "lib" ];
      buildInputs = [ mpfr glibc ];
      installPhase = ''
        bash -eu install.sh
        mkdir -p $lib/lib
        mv $out/lib/libgcc.so* $lib/lib
        ln -s $lib/lib/libgcc.so.1 $out/lib/libgcc.so
        echo "-dynamic-linker $(cat ${glibc}/nix-support/dynamic-linker)" >$out/lib/specs
      '';
    };
    # A wrapper with a setup hook: what it names is seen by each build that uses it.
    cc = stdenv.mkDerivation {
      pname = "gcc-wrapper";
      version = "11.3.0";
      inherit gcc binutils;
      libc = glibc;
      setupHook = ./cc-hook.sh;
      phases = "installPhase fixupPhase";
      installPhase = ''
        mkdir -p $out/bin $out/nix-support
        for tool in gcc g++ cc; do
          printf '#!/bin/sh\nexec %s/bin/gcc -B%s/lib "$@"\n' $gcc $libc >$out/bin/$tool
          chmod +x $out/bin/$tool
        done
        ln -s $binutils/bin/binutils $out/bin/ld
        echo $gcc >$out/nix-support/orig-cc
        echo "-idirafter ${glibc.dev}/include" >$out/nix-support/libc-cflags
      '';
    };
    # The tools, as links to those of this machine: they hold nothing of an earlier stage.
    tools = builtins.mapAttrs (pname: names: stdenv.mkDerivation {
      inherit pname names;
      version = "1.0";
      phases = "installPhase";
      installPhase = "mkdir -p $out/bin; for tool in $names; do ln -s /bin/$tool $out/bin/$tool; done";
    }) toolNames;
  };

  stage0 = makeStdenv {
    name = "bootstrap-stage0-stdenv-linux";
    shell = "${bootstrapTools}/bin/bash";
    initialPath = [ bootstrapTools ];
  };
  stageAfter = number: previous: rec {
    packages = packagesBy previous;
    stdenv = makeStdenv {
      name = "bootstrap-stage${toString number}-stdenv-linux";
      shell = "${bootstrapTools}/bin/bash";
      initialPath = [ bootstrapTools ];
      defaultBuildInputs = [ packages.cc packages.binutils ];
      preHook = "export NIX_ENFORCE_PURITY=${toString number}";
    };
  };
  stage1 = stageAfter 1 stage0;
  stage2 = stageAfter 2 stage1.stdenv;
  stage3 = stageAfter 3 stage2.stdenv;
  stage4 = stageAfter 4 stage3.stdenv;

  # The last stdenv: nothing of the bootstrap may be reached from it.
  final = stage4.packages;
  stdenv = makeStdenv {
    name = "stdenv-linux";
    shell = "${final.tools.bash}/bin/bash";
    initialPath = builtins.attrValues final.tools;
    more = if full then {
      allowedRequisites = builtins.attrValues final.tools;
      disallowedRequisites = [ bootstrapTools ];
    } else { };
  };
}
