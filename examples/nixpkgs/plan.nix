# A plan in the shape of nixpkgs. `built` lists what Nix builds, and `refused` what stands on each
# derivation that Nix refuses or fails. Without `full` whatever needs graphs of references, structured
# attributes or checks is left out, and nothing else has any of these.
{ mirror, full ? true }:
let
  system = "x86_64-linux";
  fetch = import ./fetch.nix { inherit system mirror; };
  boot = import ./stdenv.nix { inherit system fetch full; };
  inherit (boot) stdenv;
  final = boot.packagesBy stdenv;
  inherit (final) zlib;
  trivial = import ./trivial.nix { inherit stdenv; };
  packages = import ./packages.nix { inherit stdenv final fetch trivial; };
  corners = import ./corners.nix { inherit system fetch zlib; };
  graphs = import ./graphs.nix { inherit system fetch packages trivial stdenv; };
  failing = import ./refused.nix { inherit system fetch zlib; }
    // (if full then graphs.failing else { });

  isDerivation = value: value.type or null == "derivation";
  derivationsIn = value:
    if isDerivation value then [ value ]
    else if builtins.isAttrs value then builtins.concatMap derivationsIn (builtins.attrValues value)
    else [ ];
  above = name: text: derivation {
    inherit name system;
    builder = "/bin/sh";
    args = [ "-c" "echo ${text} >$out" ];
  };
in {
  built = derivationsIn {
    inherit (boot) bootstrapTools stage0 stage1 stage2 stage3 stage4 stdenv;
    inherit final packages corners;
    fetched = fetch.all;
    system = import ./system.nix { inherit packages trivial graphs stdenv full; };
    checked = if full then { inherit (graphs) graphs structures holding; } else { };
  };
  # Each has a user, and that another, which uses what is built too.
  refused = map (name: let failed = failing.${name} "fails-${name}"; in
    above "user-of-both" "${above "user-of-${name}" failed} ${zlib}") (builtins.attrNames failing);
}
