# What is told of references: exportReferencesGraph, structured attributes, and the four checks.
{ system, fetch, packages, trivial, stdenv }:
let
  inherit (builtins) placeholder;
  inherit (packages) hello git zlib openssl joined;
  with-more = more: name: text: derivation ({
    inherit name system;
    builder = "/bin/bash";
    args = [ "-euc" "PATH=/usr/bin:/bin\n${text}\n:" ];
  } // more);
  hidden = builtins.unsafeDiscardStringContext;
  structured = more: with-more ({ __structuredAttrs = true; outputs = [ "out" "dev" ]; } // more) "structured" ''
    source "$NIX_ATTRS_SH_FILE"
    PATH=/usr/bin:/bin
    mkdir "''${outputs[out]}"
    cp "$NIX_ATTRS_JSON_FILE" "$NIX_ATTRS_SH_FILE" "''${outputs[out]}"
    echo dev >"''${outputs[dev]}"
  '';
in {
  graphs = rec {
    one = with-more { exportReferencesGraph = [ "graph" hello ]; inherit hello; } "graph-one" "cp graph $out";
    several = with-more {
      exportReferencesGraph = [ "closure" joined "x_.-1" zlib.dev "source" ./mirror/package "inside" "${git}/bin/git" ];
    } "graph-several" "mkdir $out; cp closure x_.-1 source inside $out";
    twice = with-more { exportReferencesGraph = [ "g" hello "g" zlib ]; } "graph-twice" "cp g $out";
    none = with-more { exportReferencesGraph = [ ]; } "graph-none" "ls -A >$out";
    derivations = with-more { exportReferencesGraph = [ "g" fetch.package.drvPath ]; } "graph-derivations" "cp g $out";
    member = with-more { exportReferencesGraph = "g ${hidden "${openssl.out}"}"; inherit git; } "graph-member" "cp g $out";
    file-and-graph = with-more { exportReferencesGraph = [ "g" zlib ]; g = "text"; passAsFile = [ "g" ]; } "file-and-graph"
      "{ ls -A; cat g; } >$out";
    # As nixpkgs' writeReferencesToFile.
    references = trivial.runCommand "references" { exportReferencesGraph = [ "graph" joined ]; } ''
      while read -r path; do
        echo $path
        read -r deriver
        read -r count
        for number in $(seq $count); do read -r reference; done
      done <graph | sort >$out
    '';
  };

  structures = rec {
    kinds = structured {
      string = "plain";
      quotes = "it's \"double\" back\\slash\nnew\ttab";
      unicode = "äöü → 𝄞";
      control = builtins.fromJSON ''"\u0001\u001f\u0008\u000c\u007f"'';
      numbers = [ 0 1 (-7) 2147483647 2147483648 16777217 9223372036854775807 ];
      floats = [ 1.5 3.0 1.0e10 1.0e-7 0.1 1.0e15 1.0e16 123456.789 ];
      int = 42;
      big = 4294967297;
      negative = -2;
      float = 0.5;
      whole = 3.0;
      million = 1234567.0;
      yes = true;
      no = false;
      nothing = null;
      list = [ "a" "b c" "it's" 1 true false null ];
      nested = [ [ "a" ] { b = 1; } ];
      emptyList = [ ];
      emptySet = { };
      set = { a = 1; b = "x"; "it's" = true; "key with space" = "v'v"; n = null; };
      setNested = { a.b.c = [ 1 2 ]; };
      "foo-bar" = "no name of a shell";
      "1foo" = "neither";
      _under = "one";
      PATH = "own path";
      package = hello;
      packages = [ hello git.out zlib.dev ];
      place = "${placeholder "out"} and ${placeholder "dev"} and ${placeholder "man"}";
      "${placeholder "dev"}" = [ (placeholder "dev") ];
      passAsFile = [ "string" ];
      source = ./mirror/package;
    };
    environment = with-more { __structuredAttrs = true; a = "hidden"; impureEnvVars = [ "COMPARE_PROXY" ]; } "structured-environment" ''
      source "$NIX_ATTRS_SH_FILE"
      { env | sed "s|$TMPDIR|BUILD|g" | sort; ls -A; stat -c %a .attrs.json .attrs.sh; } >''${outputs[out]}
    '';
    graph = structured {
      exportReferencesGraph = {
        closure = [ joined ];
        two = [ zlib.dev ./mirror/package fetch.all.tree-md5 fetch.all.flatSri fetch.busybox ];
        text = "${builtins.toFile "text" "text"}";
        empty = [ ];
      };
    };
    graph-of-derivations = structured { exportReferencesGraph.g = [ fetch.package.drvPath ]; };
    # As nixpkgs' closureInfo.
    closureInfo = with-more {
      __structuredAttrs = true;
      exportReferencesGraph.closure = [ joined openssl.dev ];
      preferLocalBuild = true;
    } "closure-info" ''
      out=$(sed -n "s|^declare -A outputs=(\['out'\]='\([^']*\)' )|\1|p" "$NIX_ATTRS_SH_FILE")
      mkdir $out
      grep -o '"path":"[^"]*"' "$NIX_ATTRS_JSON_FILE" | cut -d '"' -f 4 >$out/store-paths
      grep -o '"nar[HS][a-z]*":[^,}]*' "$NIX_ATTRS_JSON_FILE" >$out/registration
    '';
    fixed = with-more {
      __structuredAttrs = true;
      outputHash = fetch.hashes.note.sha256;
      outputHashAlgo = "sha256";
      outputHashMode = "flat";
      impureEnvVars = [ "COMPARE_PROXY" ];
    } "structured-fixed" ''
      [ "$COMPARE_PROXY" = "from the caller" ]
      [ "$NIX_OUTPUT_CHECKED" = 1 ]
      echo 'A note that is fetched.' >${placeholder "out"}
    '';
    generic = stdenv.mkDerivation {
      pname = "generic";
      version = "1";
      __structuredAttrs = true;
      outputs = [ "out" "dev" ];
      buildCommand = "mkdir $out; echo $dev >$out/dev; echo \"\${words[1]}\" >$dev";
      words = [ "a" "b c" ];
    };
    feature = structured { requiredSystemFeatures = [ "big-parallel" ]; };
    checked = with-more {
      __structuredAttrs = true;
      outputs = [ "out" "dev" ];
      outputChecks = {
        out = { maxSize = 1000; maxClosureSize = 200000; allowedReferences = [ hello "dev" ]; disallowedRequisites = [ git ]; };
        dev = { allowedRequisites = [ "dev" ]; allowedReferences = null; disallowedReferences = [ "out" ]; };
        other.maxSize = 1;
      };
    } "structured-checked" "echo ${hello} ${placeholder "dev"} >${placeholder "out"}; echo >${placeholder "dev"}";
  };

  # Checks that hold.
  holding = {
    references = with-more { allowedReferences = [ hello "dev" ]; outputs = [ "out" "dev" ]; } "holds-references" "echo $dev ${hello} >$out; : >$dev";
    none = with-more { allowedReferences = [ ]; inherit hello; } "holds-none" "echo none >$out";
    own = with-more { allowedReferences = [ "out" ]; } "holds-own" "echo $out >$out";
    requisites = with-more { allowedRequisites = [ fetch.all.tree-sha256 ]; } "holds-requisites" "ln -s ${fetch.all.tree-sha256} $out";
    requisites-own = with-more { allowedRequisites = [ ]; } "holds-requisites-own" "ln -s $out $out";
    disallowed = with-more { disallowedReferences = [ git zlib.dev ]; disallowedRequisites = [ (hidden "${git.drvPath}") ]; } "holds-disallowed" "echo ${hello} >$out";
    null = with-more { allowedReferences = null; } "holds-null" ": >$out";
    drv = with-more { allowedReferences = [ "${hidden "${git}"}/" hello ]; } "holds-slash" "echo ${hello} >$out";
  };

  # Checks that fail, as functions of a name.
  failing = {
    outside = name: with-more { allowedReferences = [ git ]; } name "echo ${hello} >$out";
    own = name: with-more { allowedReferences = [ ]; } name "echo $out >$out";
    requisites = name: with-more { allowedRequisites = [ hello ]; } name "echo ${hello} >$out";
    disallowed = name: with-more { disallowedReferences = [ hello ]; } name "echo ${hello} >$out";
    disallowed-requisites = name: with-more { disallowedRequisites = [ hello.man ]; outputs = [ "out" "dev" ]; } name
      "echo $dev >$out; echo ${hello} >$dev";
    illegal = name: with-more { allowedReferences = [ "nothing" ]; } name ": >$out";
    sub-path = name: with-more { disallowedReferences = [ "${hello}/bin" ]; } name ": >$out";
    size = name: with-more { __structuredAttrs = true; outputChecks.out.maxSize = 1000; } name
      "head -c 1000 /dev/zero >${placeholder "out"}";
    closure-size = name: with-more { __structuredAttrs = true; outputChecks.out.maxClosureSize = 1000; } name
      "echo ${joined} >${placeholder "out"}";
    structured-own = name: with-more { __structuredAttrs = true; outputChecks.out.allowedRequisites = [ ]; } name
      ": >${placeholder "out"}";
    graph-outside = name: with-more { exportReferencesGraph = [ "g" (hidden "${hello}") ]; } name ": >$out";
    graph-odd = name: with-more { exportReferencesGraph = "g ${hello} h"; } name ": >$out";
  };
}
