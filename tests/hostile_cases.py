"""The builders of `tests/hostile-builders`: what each does, and what is stated of its run."""

import collections
import os
import sys

from scenes import until

BUILT, AGAIN = ("built DRV\noutput OUT\n", 0), ("reused DRV\noutput OUT\n", 0)
UNWRITABLE = ("", 3, "nix_realise: journal: Unwritable\n")
UNREADABLE = ("", 3, "nix_realise: journal: Unreadable\n")
failed = lambda reason: (f"failed DRV: {reason}\n", 1)
READ_FAULT, TOO_LARGE = failed("ReadFault"), failed("TooLarge")


# A builder. In its script $F is a folder outside of the store folder, and $W a folder there that no
# run may touch; where $F/well is there, it makes its output well, and that is all. Then: what the
# run tells, and what the next one tells, once $F/well is there; what stands at the output after the
# first run, or none for any; other first answers that are right too; the names of the store folder
# that the builder itself makes or changes beside its output; what is done between the runs, with
# the site; whether the program is killed; whether only the superuser can do so; whether the disk
# has one megabyte; whether strace can name all paths, and no child keeps it waiting; whether a
# child still runs after the first run; and options of both runs.
Case = collections.namedtuple(
    "Case",
    "name script first second stands also beside between killed root small traced stays options",
    defaults=[BUILT, None, None, (), (), None, False, False, False, True, False, ()],
)
LEVELS = "p=$out; mkdir $p; for i in $(seq 2 {}); do p=$p/d; mkdir $p; done"
ENTRIES = "mkdir $out; cd $out; seq {} | xargs touch"
# Ends well where nothing is open but the three standard streams.
FILES = """
import os, sys
def is_open(number):
    try:
        return bool(os.fstat(number))
    except OSError:
        return False
sys.exit([number for number in range(1024) if is_open(number)] != [0, 1, 2])
"""
LONG = 'import os; [(os.mkdir("n" * 255), os.chdir("n" * 255)) for _ in range(20)]'
BIND = 'import os,socket; os.chdir(os.environ["D"]); socket.socket(socket.AF_UNIX).bind("s")'
SOCKET = f"D=$(mktemp -d $F/XXXXXX); export D; {sys.executable} -c '{BIND}'; mv $D/s $at"
CHILD = " & echo $! >> $F/children; "
LOOP = "(for i in $(seq {0}); do [ -e $F/stop ] && break; {1}; done)" + CHILD
JOURNAL = "$NIX_STORE/realiser-journal"


def kinds():
    """What is neither a file nor a folder, at an output and in one."""
    made = {
        "link to a file": "ln -s $W/file $at",
        "link to a folder": "ln -s $W $at",
        "link to nothing": "ln -s $W/none $at",
        "link to itself": "ln -s $at $at",
        "pipe": "mkfifo $at",
        "socket": SOCKET,
        "device": "mknod $at c 1 3",
    }
    for name, script in made.items():
        stands, root = name.split()[0], name == "device"
        yield Case(name, f"at=$out; {script}", READ_FAULT, stands=stands, root=root)
        inner = f"mkdir $out; echo x > $out/a; at=$out/b; {script}"
        yield Case(name + " in a folder", inner, READ_FAULT, stands="folder", root=root)


def linked():
    """The same where outputs may have links, which are read and not followed, and come and go."""
    for case in (*kinds(), *swaps_of_outputs()):
        first = BUILT if "link" in case.name else case.first
        name = f"{case.name}, where links may be"
        yield case._replace(name=name, first=first, options=("--profile", "nix"))


def limits():
    long = "n=$(printf %0255d 7); mkdir $out; cd $out; mkdir $n; echo x > $n/$n"
    longer = f"mkdir $out; cd $out; {sys.executable} -c '{LONG}'"
    odd = 'mkdir $out; : > "$out/a b"; : > "$out/$(printf \'c\\nd\\\\\')"; : > $out/-rf'
    no_text = "mkdir $out; : > $out/$(printf 'a\\377')"
    levels = "for i in $(seq 200); do mkdir d; cd d; {} done"
    two = "mkdir $out; truncate -s 67108864 $out/a; echo > $out/b"
    for name, script, first, *stands in (
        ("65,536 entries", ENTRIES.format(65536), BUILT, "folder"),
        ("65,537 entries", ENTRIES.format(65537), TOO_LARGE, "folder"),
        ("64 MiB", "truncate -s 67108864 $out", BUILT, "file"),
        ("64 MiB and a byte", "truncate -s 67108865 $out", TOO_LARGE, "file"),
        ("64 MiB and a byte in two files", two, TOO_LARGE, "folder"),
        ("32 levels", LEVELS.format(32), BUILT, "folder"),
        ("33 levels", LEVELS.format(33), TOO_LARGE, "folder"),
        ("200 levels", "mkdir $out; cd $out; " + levels.format(""), TOO_LARGE, "folder"),
        ("200 levels in the build folder", levels.format(": > f;") + "; echo > $out", BUILT),
        ("names of 255 bytes", long, BUILT, "folder"),
        ("a path of 5,000 bytes", longer, READ_FAULT, "folder"),
        ("a name that is no UTF-8", no_text, READ_FAULT, "folder"),
        ("names with spaces, newlines and dashes", odd, BUILT, "folder"),
    ):
        yield Case(name, script, first, None, *stands, traced=script != longer)
    yield Case("a file without permissions", "echo x > $out; chmod 0 $out", also=(READ_FAULT,))


def ends():
    """Builders that end otherwise, or go on."""
    first = "if [ -e $F/once ]; then echo made > $out; else : > $F/once; %s; fi"
    status = failed("ExitStatus(77)")
    yield Case("an exit status the first time", first % "exit 77", status)
    yield Case("a signal the first time", first % "kill -9 $$", failed("Killed"))
    ignores = "s='INT TERM HUP QUIT PIPE USR1'; trap '' $s; for s in $s; do kill -$s $$; done; "
    yield Case("signals that are ignored", ignores + "echo made > $out", stands="file")
    outlives = "trap '' HUP TERM INT; " + LOOP.format(6000, "echo x >> $F/late; sleep 0.05")
    more = {"stands": "file", "traced": False}
    yield Case("a child that stays", outlives + "echo made > $out", stays=True, **more)
    late = "(until [ -e $F/well ]; do sleep 0.05; done; echo late > $out; : > $F/late)" + CHILD
    late += "echo made > $out"
    changed = lambda site: until("a late change", (site.outside / "late").exists)
    yield Case("a child that changes the output later", late, between=changed, **more)
    kills = "kill -9 $PPID; sleep 0.2; echo late > $out"
    ended = lambda site: until("its end", lambda: os.path.exists(site.output))
    yield Case("the death of the program", kills, killed=True, second=BUILT, between=ended)
    looks = f"{sys.executable} -c '{FILES}' && echo made > $out"
    yield Case("a look at its open files", looks, stands="file")


def beside():
    names = (".nix_realise-0", ".nix_realise-left-0", "beside", ".build-7")
    script = "".join(f"echo mine > $NIX_STORE/{name}; " for name in names)
    yield Case("files beside the output", script + "echo made > $out", beside=names)
    yield Case("another journal", f"echo garbage > {JOURNAL}; echo made > $out")
    yield Case("no journal", f"rm {JOURNAL}; echo made > $out")
    yield Case("a link for the journal", f"rm {JOURNAL}; ln -s $W/file {JOURNAL}; echo made > $out")
    for name, make in (("folder", "mkdir"), ("pipe", "mkfifo")):
        script = f"rm {JOURNAL}; {make} {JOURNAL}; echo made > $out"
        more = {"second": UNREADABLE, "beside": ("realiser-journal",)}
        yield Case(f"a {name} for the journal", script, UNWRITABLE, **more)
    for name, link in (
        ("no build folder", ""),
        ("a link for the build folder", "ln -s $W $NIX_BUILD_TOP; "),
        ("a dangling link for it", "ln -s $W/none $NIX_BUILD_TOP; "),
    ):
        yield Case(name, f"cd /; rm -rf $NIX_BUILD_TOP; {link}echo made > $out")
    yield Case("a hard link for the output", "ln $W/file $out", stands="file")


STOP = lambda site: site.stop()  # Has the children end, and waits for them.
ANY_ANSWER = (READ_FAULT, TOO_LARGE, failed('MissingOutput("out")'), BUILT)
MANY_FILES = "mkdir -p $out/d; for i in $(seq 300); do : > $out/d/$i; : > $out/$i; done; "


def swaps_of_outputs():
    """Links that come and go, in the place of a folder, while the program reads it."""
    read = {"also": ANY_ANSWER, "between": STOP}
    for name, at in (("for", "$out"), ("in", "$out/d")):
        yield Case(f"a link {name} the output while it is read", MANY_FILES + swapping(at), **read)


def swaps():
    """Links that come and go, and files that grow, while the program reads or removes."""
    yield from swaps_of_outputs()
    removed = {"beside": ("*",), "between": STOP}
    fill = "for i in $(seq 300); do mkdir -p d/$i; : > d/$i/f; done; echo made > $out; "
    top = swapping("$NIX_BUILD_TOP")
    yield Case("a link for the build folder while it is removed", fill + top, **removed)
    yield Case("a link in the build folder while it is removed", fill + swapping("d"), **removed)
    keep, five = MANY_FILES + swapping("$out/d") + "sleep 0.1; exit 5", failed("ExitStatus(5)")
    yield Case("a link in an old output while it is removed", keep, five, beside=("*",))
    grow = "echo > $out; " + LOOP.format(400, "head -c 500000 /dev/zero >> $out")
    yield Case("a file that grows", grow, also=ANY_ANSWER, between=STOP)


SWAP = """
import contextlib, os, sys
at, folder, rounds = sys.argv[1:]
moved, watched, stop, begun = (f"{folder}/{name}" for name in ("moved", "watched", "stop", "begun"))
for number in range(int(rounds)):
    if number % 50 == 0 and os.path.exists(stop):
        break
    if number == 1:
        open(begun, "w").close()
    for act, words in ((os.rename, (at, moved)), (os.symlink, (watched, at)), (os.unlink, (at,)),
                       (os.rename, (moved, at))):
        with contextlib.suppress(OSError):
            act(*words)
"""


def swapping(at):
    """Swaps a place for a link to the watched folder many times; the builder waits for one."""
    begin = f"{sys.executable} -c '{SWAP}' {at} $F $(cat $F/rounds)" + CHILD
    return begin + "until [ -e $F/begun ]; do sleep 0.01; done; "


def small_disks():
    one, nine, also = "cat /dev/zero > $out", "cat /dev/zero > big; exit 9", failed("ExitStatus(1)")
    yield Case("a full disk by the output", one, UNWRITABLE, BUILT, also=(also,), small=True)
    yield Case("a full disk by the build folder", nine, failed("ExitStatus(9)"), small=True)


def cases():
    for group in (ends, beside, kinds, limits, swaps, linked, small_disks):
        yield from group()
