"""The archives that the packages are built from, by `apt-get source --download-only`."""

import hashlib
import pathlib
import subprocess
import sys
import tempfile

# What upstream released, as Debian 12 "bookworm" keeps it: the source package, its archive, and the archive's SHA-256. Each is below the
# 4 MiB that `add-text` takes. Debian's own changes are left out.
PINNED = {
    "zlib": ("zlib_1.2.13.dfsg.orig.tar.bz2", "71feb7947e3c00ef125f83b79a4e529bde31171e5babe48b391f06758d1ab0a1"),
    "bzip2": ("bzip2_1.0.8.orig.tar.gz", "ab5a03176ee106d3f0fa90e381da478ddae405918153cca248e682cd0c4a2269"),
    "lua5.4": ("lua5.4_5.4.4.orig.tar.gz", "164c7849653b80ae67bec4b7473b884bf5cc8d2dca05653475ec2ed27b9ebf61"),
    "libpng1.6": ("libpng1.6_1.6.39.orig.tar.gz", "a00e9d2f2f664186e4202db9299397f851aea71b36a35e74910b8820e380d441"),
}

# apt-get with a list, indices and a cache of its own: those of the machine are left alone; its proxies hold.
CONFIGURATION = """
Dir::Etc::sourcelist "{0}/sources.list"; Dir::Etc::sourceparts "-"; Dir::State::lists "{0}/lists"; Dir::Cache "{0}/cache";
APT::Sandbox::User "root";
#clear APT::Update::Post-Invoke;
#clear APT::Update::Post-Invoke-Success;
"""
DEBIAN = "deb-src [signed-by=/usr/share/keyrings/debian-archive-keyring.gpg] http://deb.debian.org/debian bookworm main\n"


def fetch(packages, folder):
    """Puts the archives of source packages into the folder; ends where apt-get fails."""
    with tempfile.TemporaryDirectory(prefix="nufreld-apt-") as own:
        for place in ("lists/partial", "cache/archives/partial"):
            pathlib.Path(own, place).mkdir(parents=True)
        pathlib.Path(own, "sources.list").write_text(DEBIAN)
        pathlib.Path(own, "apt.conf").write_text(CONFIGURATION.format(own))
        for words in (["update", "--error-on=any"], ["source", "--download-only", "--only-source", "--tar-only", *packages]):
            words = ["apt-get", "-qq", f"--config-file={own}/apt.conf", *words]
            try:
                subprocess.run(words, cwd=folder, check=True, stdout=subprocess.DEVNULL)
            except (OSError, subprocess.CalledProcessError) as fault:
                names = " ".join(PINNED[package][0] for package in packages)
                sys.exit(f"world: {fault}\nworld: missing in {folder}: {names}")


def download(folder):
    """Fetches the archives that the folder has not yet, and checks all; gives their paths by source package."""
    folder.mkdir(parents=True, exist_ok=True)
    missing = [package for package, (name, _) in PINNED.items() if not (folder / name).exists()]
    if missing:
        print("Downloading from Debian:", *missing, flush=True)
        fetch(missing, folder)
    for package, (name, digest) in PINNED.items():
        if not (folder / name).exists():
            sys.exit(f"world: missing in {folder}: {name}, which is no longer the archive of {package}")
        if hashlib.sha256((folder / name).read_bytes()).hexdigest() != digest:
            sys.exit(f"world: {folder / name} has not the SHA-256 {digest}; remove it to have it fetched again")
    return {package: folder / name for package, (name, _) in PINNED.items()}
