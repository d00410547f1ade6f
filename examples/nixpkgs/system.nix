# The closure of a system: what nixpkgs has at its top.
{ packages, trivial, stdenv, graphs, full }:
with trivial;
let
  inherit (packages) hello git curl perl openssl python joined service;
  units = builtins.listToAttrs (map (package: {
    name = "unit-${package.pname}.service";
    value = service package.pname package;
  }) [ hello git perl python ]);
in rec {
  inherit units;
  unitFarm = linkFarm "system-units" (map (name: { inherit name; path = units.${name}; }) (builtins.attrNames units));
  environment = symlinkJoin { name = "system-path"; paths = [ hello git curl.bin perl openssl.bin python joined ]; };
  etc = linkFarm "etc" [
    { name = "etc/hosts"; path = writeText "hosts" "127.0.0.1 localhost\n"; }
    { name = "etc/systemd/system"; path = unitFarm; }
    { name = "etc/profile"; path = writeScript "profile" "export PATH=${environment}/bin\n"; }
  ];
  activate = writeShellScriptBin "activate" ''
    systemConfig=${builtins.placeholder "out"}
    ln -sfn ${etc}/etc /etc/static
    ${environment}/bin/hello "$systemConfig"
  '';
  kernel = runCommand "linux-5.15" { outputs = [ "out" "dev" ]; requiredSystemFeatures = [ "big-parallel" ]; } ''
    mkdir -p $out $dev/lib/modules/5.15
    head -c 5000000 /dev/zero >$out/bzImage
    ln -s $dev $out/source; seq 1000 >$dev/lib/modules/5.15/map
  '';
  initrd = runCommand "initrd" (if full then { exportReferencesGraph = [ "closure" environment ]; } else { }) ''
    mkdir $out
    if [ -e closure ]; then grep -c . closure >$out/closure; fi
    echo ${kernel.dev} >$out/modules
  '';
  toplevel = runCommandLocal "system" {
    inherit activate etc environment kernel initrd;
    extraDependencies = if full then [ graphs.structures.closureInfo graphs.graphs.references ] else [ ];
    configurationName = "an example";
  } ''
    mkdir $out
    ln -s $kernel/bzImage $out/kernel
    ln -s $initrd/closure $out/initrd
    ln -s $etc/etc $out/etc
    ln -s $environment $out/sw
    sed "s|@out@|$out|" $activate/bin/activate >$out/activate
    chmod u+x $out/activate
    echo -n "$configurationName" >$out/name
    echo "$extraDependencies" >$out/extra-dependencies
  '';
}
