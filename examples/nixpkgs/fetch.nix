# What is fetched: by builtin:fetchurl and by builders of our own, with each kind of hash.
# `mirror` is a folder with note.txt, busybox, package.tar, package.nar and package.nar.xz.
{ system, mirror }:
rec {
  url = name: "file://${mirror}/${name}";

  # As <nix/fetchurl.nix> writes it.
  fetchurlBoot = { name, file ? name, hash ? "", algo ? "sha256", executable ? false, unpack ? false
    , outputSystem ? "builtin", more ? { } }:
    derivation ({
      inherit name executable unpack;
      builder = "builtin:fetchurl";
      system = outputSystem;
      outputHash = hash;
      outputHashAlgo = algo;
      outputHashMode = if unpack || executable then "recursive" else "flat";
      preferLocalBuild = true;
      impureEnvVars = [ "http_proxy" "https_proxy" "ftp_proxy" "all_proxy" "no_proxy" ];
      url = url file;
      urls = [ (url file) ];
    } // more);

  # A builder that copies what a URL of this machine names.
  fetchBy = { name, file ? name, hash, algo ? null, mode ? "flat", copy ? "cp $source $out", more ? { } }:
    derivation ({
      inherit name system copy;
      builder = "/bin/sh";
      args = [ "-euc" ''
        PATH=/usr/bin:/bin
        # What is fetched may depend on the caller's environment, and on nothing else of it.
        [ "$NIX_OUTPUT_CHECKED" = 1 ]
        [ "$COMPARE_PROXY" = "from the caller" ] && [ "$COMPARE_UNSET" = "" ]
        [ "''${COMPARE_HIDDEN-none}" = none ]
        source=''${urls#file://}
        eval "$copy"
        :
      '' ];
      urls = [ (url file) ];
      impureEnvVars = [ "COMPARE_PROXY" "COMPARE_UNSET" ];
      preferLocalBuild = true;
      outputHash = hash;
      outputHashMode = mode;
    } // (if algo == null then { } else { outputHashAlgo = algo; }) // more);

  busybox = fetchurlBoot {
    name = "busybox";
    executable = true;
    hash = hashes.busybox;
  };
  bootstrapTarball = fetchurlBoot { name = "bootstrap-tools.tar"; file = "package.tar"; hash = hashes.tar.sha256; };
  package = fetchurlBoot { name = "package.tar"; hash = hashes.tar.sha512; algo = "sha512"; };

  hashes = import ./hashes.nix;

  all = {
    inherit busybox bootstrapTarball package;
    # Two derivations, one output; and what is built on each.
    twin = fetchBy { name = "package.tar"; hash = hashes.tar.sha512; algo = "sha512"; };
    unpacked = fetchurlBoot { name = "unpacked"; file = "package.nar"; unpack = true; hash = hashes.tree.sha256; };
    unpackedXz = fetchurlBoot {
      name = "unpacked-xz";
      file = "package.nar.xz";
      unpack = true;
      hash = hashes.tree.sha1;
      algo = "sha1";
      outputSystem = system;
    };
    escaped = fetchurlBoot { name = "escaped"; file = "n%6fte.txt"; hash = hashes.note.md5; algo = "md5"; };
    flatMd5 = fetchBy { name = "flat-md5"; file = "note.txt"; hash = hashes.note.md5; algo = "md5"; };
    flatSha1 = fetchBy { name = "flat-sha1"; file = "note.txt"; hash = hashes.note.sha1; algo = "sha1"; };
    flatSha256 = fetchBy { name = "flat-sha256"; file = "note.txt"; hash = hashes.note.sha256; algo = "sha256"; };
    flatSha512 = fetchBy { name = "flat-sha512"; file = "note.txt"; hash = hashes.note.sha512; algo = "sha512"; };
    flatSri = fetchBy { name = "flat-sri"; file = "note.txt"; hash = hashes.note.sri; };
    # The group may execute it: that is no matter.
    flatGroup = fetchBy {
      name = "flat-group";
      file = "note.txt";
      hash = hashes.note.sha256;
      algo = "sha256";
      copy = "cp $source $out; chmod 654 $out";
    };
  } // builtins.listToAttrs (map (algo: {
    name = "tree-${algo}";
    value = fetchBy {
      name = "tree-${algo}";
      file = "package.tar";
      mode = "recursive";
      inherit algo;
      hash = hashes.tree.${algo};
      copy = "tar -xf $source; mv package $out";
    };
  }) [ "md5" "sha1" "sha256" "sha512" ]) // {
    treeSri = fetchBy {
      name = "tree-sri";
      file = "package.tar";
      mode = "recursive";
      hash = hashes.tree.sri;
      copy = "tar -xf $source; mv package $out; chmod -R go-rx $out";
    };
    # A file and a link by recursive hashes.
    recursiveFile = fetchBy {
      name = "recursive-file";
      file = "note.txt";
      mode = "recursive";
      algo = "sha512";
      hash = hashes.noteNar;
    };
    recursiveLink = fetchBy {
      name = "recursive-link";
      file = "note.txt";
      mode = "recursive";
      algo = "sha256";
      hash = hashes.link;
      copy = "ln -s note.txt $out";
    };
  };
}
