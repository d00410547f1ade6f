"""The second half: packages as distributions build them, with symbolic links in their outputs.

zlib and libpng are shared libraries with the links that their own makefiles make, a C program finds
both by its run path, `joined` is a package of links alone, as `symlinkJoin` of nixpkgs makes, and
the output of `profile` is a link itself.
"""

import os
import pathlib
import re
import subprocess
import sys

from store import FLAGS, compare_references, foretell, read, realise, reported, targets_at

HERE = pathlib.Path(__file__).resolve().parent
# The option by which outputs may have links.
LINKS = ("--profile", "nix")


def write_linked_plan(store, archives):
    """Adds what is built from and the five derivations; gives the outputs of each."""
    zlib = store.package("zlib", "dev out", """
    CFLAGS="$flags" ./configure --shared --prefix=$out --includedir=$dev/include
    make
    make install pkgconfigdir=$dev/lib/pkgconfig
    rm $out/lib/libz.a
    """, source=store.source(archives["zlib"]))

    libpng = store.package("libpng", "dev out", """
    ./configure --disable-static --prefix=$out --includedir=$dev/include --bindir=$dev/bin \\
        CFLAGS="$flags" CPPFLAGS="-I$zlib_dev/include" LDFLAGS="-L$zlib/lib -Wl,-rpath,$zlib/lib"
    make
    make install pkgconfigdir=$dev/lib/pkgconfig
    """, source=store.source(archives["libpng1.6"]), zlib=zlib["out"], zlib_dev=zlib["dev"])

    libraries = {"zlib": zlib["out"], "zlib_dev": zlib["dev"]}
    libraries |= {"libpng": libpng["out"], "libpng_dev": libpng["dev"]}
    roundtrip = store.derivation("roundtrip", "out", FLAGS + """
    mkdir -p $out/bin
    gcc $flags -o $out/bin/roundtrip $source -I$zlib_dev/include -I$libpng_dev/include \\
        -L$zlib/lib -L$libpng/lib -Wl,-rpath,$libpng/lib:$zlib/lib -lpng16 -lz
    """, source=store.source(HERE / "roundtrip.c"), **libraries)

    # A link for each file of each package, in folders of its own.
    joined = store.derivation("joined", "out", """
    mkdir $out
    for package in $zlib $libpng $roundtrip; do cp -rst $out $package/*; done
    """, zlib=zlib["out"], libpng=libpng["out"], roundtrip=roundtrip["out"])

    profile = store.derivation("profile", "out", """
    ln -s $joined $out
    """, joined=joined["out"])
    plan = {"zlib": zlib, "libpng": libpng, "roundtrip": roundtrip}
    return plan | {"joined": joined, "profile": profile}


def part_of(plan, last):
    """The derivations of a plan up to this one."""
    names = list(plan)
    return {name: plan[name] for name in names[: names.index(last) + 1]}


def first_bad(drv, failed):
    """The first input of a derivation that is refused where another one fails, or is that, or
    none."""
    inputs = [path for path, _ in read(drv).inputs]
    return next((path for path in inputs if path == failed or first_bad(path, failed)), None)


def report_of(forecast, failed):
    """The report of a run of which this derivation fails by ReadFault, by its forecast."""
    lines = []
    for line in reported(forecast).splitlines():
        _, drv = line.split(" ")
        bad = first_bad(drv, failed) if drv.endswith(".drv") else None
        if drv == failed:
            line = f"failed {drv}: ReadFault"
        elif bad:
            line = f"refused {drv}: InputNotRealised({bad})"
        lines.append(f"{line}\n")
    return "".join(line for line in lines if not line.startswith("output "))


def expect_read_fault(store, root, outputs):
    """Realises an output without the option; ends where not exactly this derivation fails, by
    ReadFault, and what needs it is refused."""
    wanted = report_of(foretell(store, root), outputs["out"].drv)
    report, status = store.run("realise", root.drv)
    print(report, end="", flush=True)
    expect("the report", wanted, report)
    expect("the status", 1, status)


def expect(what, wanted, got):
    """Ends where something isn't as it has to be."""
    if got != wanted:
        sys.exit(f"world: {what} has to be\n{wanted}\nand is\n{got}")


def printed_by(words, **environment):
    """What a program prints that gets this environment alone; ends where its status is not 0."""
    ran = subprocess.run(words, env=environment, capture_output=True, text=True, check=False)
    expect(f"the status of {words[0]}", "0", f"{ran.returncode}{ran.stderr}")
    return ran.stdout


def run_path(program):
    """The folders in which a program looks for its libraries."""
    printed = printed_by(["/usr/bin/readelf", "--dynamic", "--wide", program])
    return "".join(re.findall(r"\(RUNPATH\).*\[(.*)\]", printed))


def loaded_by(program):
    """The files that the loader finds for a program, by the names of the libraries."""
    # With this variable the loader tells what it finds, in place of the program.
    return dict(re.findall(r"(\S+) => (\S+)", printed_by([program], LD_TRACE_LOADED_OBJECTS="1")))


def run_program(plan):
    """Runs the C program by the profile, and prints what it does; ends where a library is found
    otherwise than by its run path."""
    program = f"{plan['profile']['out'].path}/bin/roundtrip"
    libpng, zlib = (f"{plan[name]['out'].path}/lib" for name in ("libpng", "zlib"))
    expect("the run path", f"{libpng}:{zlib}", run_path(program))
    loaded = loaded_by(program)
    for name, path in (("libpng16.so.16", libpng), ("libz.so.1", zlib)):
        expect(f"what is loaded as {name}", f"{path}/{name}", loaded.get(name))
        print(f"    {path}/{name} -> {os.readlink(f'{path}/{name}')}")
    print(f"    {printed_by([program])}", end="")


def show(store, archives, jobs):
    """Builds the packages, and shows what is registered of them, and what comes of them without the
    option."""
    plan = write_linked_plan(store, archives)
    profile = plan["profile"]["out"]
    options = ("--jobs", str(jobs), *LINKS)
    print("WITHOUT --profile nix a link in an output is a ReadFault:", flush=True)
    expect_read_fault(store, profile, plan["zlib"])
    print("\nWITH IT the libraries and the program are built:", flush=True)
    realise(store, part_of(plan, "roundtrip"), plan["roundtrip"]["out"], *options)
    for what, name in (("A PACKAGE OF LINKS ALONE", "joined"), ("A LINK TO IT", "profile")):
        print(f"\n{what} is refused without the option, and built with it:", flush=True)
        expect_read_fault(store, profile, plan[name])
        realise(store, part_of(plan, name), plan[name]["out"], *options)
    print("The references that were registered, which are those that grep and readlink find:")
    compare_references(plan, store.entries())
    count = len(targets_at(plan["joined"]["out"].path))
    print("\nAGAIN. All is valid now, so nothing is built, with the option or without:", flush=True)
    realise(store, plan, profile, *options)
    realise(store, plan, profile)
    print(f"\nTHE PROGRAM is one of {count} links. Its libraries are found by its run path:")
    run_program(plan)
