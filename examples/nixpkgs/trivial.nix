# Builders of texts, scripts and packages of links, in the words of nixpkgs.
{ stdenv }:
rec {
  runCommand = name: env: buildCommand: stdenv.mkDerivation ({
    inherit name buildCommand;
    passAsFile = [ "buildCommand" ] ++ (env.passAsFile or [ ]);
  } // removeAttrs env [ "passAsFile" ]);

  # Built where it is wanted: nothing of this is looked at on one machine.
  runCommandLocal = name: env: runCommand name ({ preferLocalBuild = true; allowSubstitutes = false; } // env);

  writeTextFile = { name, text, executable ? false, destination ? "", checkPhase ? "" }:
    runCommandLocal name {
      inherit text executable destination checkPhase;
      passAsFile = [ "text" ];
    } ''
      target=$out$destination
      mkdir -p "$(dirname "$target")"
      if [ -e "$textPath" ]; then mv "$textPath" "$target"; else printf '%s' "$text" >"$target"; fi
      eval "$checkPhase"
      (test -n "$executable" && chmod +x "$target") || true
    '';
  writeText = name: text: writeTextFile { inherit name text; };
  writeScript = name: text: writeTextFile { inherit name text; executable = true; };
  writeShellScriptBin = name: text: writeTextFile {
    inherit name;
    executable = true;
    destination = "/bin/${name}";
    text = "#!${stdenv.shell}\n${text}\n";
    checkPhase = "${stdenv.shell} -n $target";
  };

  symlinkJoin = { name, paths, postBuild ? "" }:
    runCommandLocal name { inherit paths postBuild; passAsFile = [ "paths" ]; } ''
      mkdir -p $out
      for path in $(cat $pathsPath); do cp -rsfT $path $out; chmod -R u+w $out; done
      eval "$postBuild"
    '';

  linkFarm = name: entries: runCommandLocal name { } (''
    mkdir -p $out
    cd $out
  '' + builtins.concatStringsSep "" (map (entry: ''
    mkdir -p "$(dirname '${entry.name}')"
    ln -s '${entry.path}' '${entry.name}'
  '') entries));

  makeSetupHook = name: env: script: runCommand name ({ inherit script; } // env) ''
    mkdir -p $out/nix-support
    cp $script $out/nix-support/setup-hook
    chmod u+w $out/nix-support/setup-hook
    printf '%s ' ''${propagated-} >$out/nix-support/propagated-build-inputs
  '';
}
