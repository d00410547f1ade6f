# Writes the setup script of one stage.
PATH=/path-not-set
for tool in $initialPath; do PATH=$PATH:$tool/bin; done
mkdir -p $out/nix-support
{
    echo "export SHELL=$shell shell=$shell"
    echo "initialPath=\"$initialPath\""
    echo "defaultBuildInputs=\"$defaultBuildInputs\""
    printf '%s\n' "$preHook"
    cat $setup
} >$out/setup
printf '%s ' $propagatedUserEnvPkgs >$out/nix-support/propagated-user-env-packages
