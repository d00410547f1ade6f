# What every build of stdenv sources first: a small setup script in the shape of nixpkgs' own.
set -eu -o pipefail
shopt -s nullglob
export LC_ALL=C SOURCE_DATE_EPOCH=1

# With structured attributes all attributes come from a file, and the outputs are a table.
if [ -n "${NIX_ATTRS_SH_FILE-}" ]; then
    source "$NIX_ATTRS_SH_FILE"
    for name in "${!outputs[@]}"; do declare -gx "$name=${outputs[$name]}"; done
    outputNames="${!outputs[*]}"
else
    outputNames=$outputs
fi

preHooks=() postHooks=() fixupOutputHooks=()
PATH=
for tool in $initialPath; do PATH=$PATH${PATH:+:}$tool/bin; done
export PATH

# Each dependency once: its programs, its setup hook, and what it propagates.
declare -A seen=()
addInput() {
    if [ -n "${seen[$1]-}" ]; then return 0; fi
    seen[$1]=1
    if [ -d "$1/bin" ]; then PATH=$1/bin:$PATH; fi
    if [ -d "$1/include" ]; then NIX_CFLAGS_COMPILE="${NIX_CFLAGS_COMPILE-} -isystem $1/include"; fi
    if [ -d "$1/lib" ]; then NIX_LDFLAGS="${NIX_LDFLAGS-} -L$1/lib"; fi
    if [ -f "$1/nix-support/setup-hook" ]; then source "$1/nix-support/setup-hook"; fi
    if [ -f "$1/nix-support/propagated-build-inputs" ]; then
        for further in $(cat "$1/nix-support/propagated-build-inputs"); do addInput "$further"; done
    fi
}
for input in ${defaultBuildInputs-} ${nativeBuildInputs-} ${buildInputs-} ${propagatedBuildInputs-}; do
    addInput "$input"
done

runHooks() { local hook; for hook in "$@"; do "$hook"; done; }

unpackPhase() {
    local archive
    for archive in ${src-} ${srcs-}; do
        if [ -d "$archive" ]; then cp -r "$archive" source; chmod -R u+w source; else tar -xf "$archive"; fi
    done
    if [ -n "${sourceRoot-}" ]; then cd "$sourceRoot"; fi
}

patchPhase() {
    local change
    for change in ${patches-}; do patch -s -p1 <"$change"; done
}

configurePhase() {
    if [ -x ./configure ]; then
        ./configure "--prefix=$prefix" ${configureFlags-} \
            "CFLAGS=${NIX_CFLAGS_COMPILE-}" "LDFLAGS=${NIX_LDFLAGS-}"
    fi
}

buildPhase() { if [ -f build.sh ]; then bash -eu build.sh; fi; }
installPhase() { if [ -f install.sh ]; then bash -eu install.sh; fi; }

# Scripts get the shell of this stdenv, headers go to dev, and what is propagated is written down.
fixupPhase() {
    local name file
    for name in $outputNames; do
        prefix=${!name}
        runHooks "${fixupOutputHooks[@]}"
        for file in "$prefix"/bin/*; do
            if [ -f "$file" ] && [ ! -L "$file" ]; then sed -i "1s|^#! */bin/sh|#!$shell|" "$file"; fi
        done
    done
    if [ -n "${dev-}" ] && [ "$dev" != "$out" ] && [ -d "$out/include" ]; then
        mkdir -p "$dev"
        mv "$out/include" "$dev/include"
    fi
    if [ -n "${propagatedBuildInputs-}" ]; then
        mkdir -p "${dev-$out}/nix-support"
        printf '%s ' $propagatedBuildInputs >"${dev-$out}/nix-support/propagated-build-inputs"
    fi
    if [ -n "${setupHook-}" ]; then
        mkdir -p "${dev-$out}/nix-support"
        sed "s|@out@|$out|g; s|@shell@|$shell|g" "$setupHook" >"${dev-$out}/nix-support/setup-hook"
    fi
}

genericBuild() {
    local phase
    prefix=$out
    runHooks "${preHooks[@]}"
    for phase in ${phases-unpackPhase patchPhase configurePhase buildPhase installPhase fixupPhase}; do
        eval "${!phase-$phase}"
    done
    runHooks "${postHooks[@]}"
}

# A command that is given as text, or as a file where it may be long.
if [ -n "${buildCommandPath-}" ]; then
    genericBuild() { source "$buildCommandPath"; }
elif [ -n "${buildCommand-}" ]; then
    genericBuild() { eval "$buildCommand"; }
fi
