"""The rule of `tests/memory-sources`: the code of a source as one line, the forms that are allowed
there, and what is a fault in what is left. All are regular expressions over that line."""

import functools
import re

either = lambda words: "|".join(words.split())
# A group in braces. `text_of` writes before each brace how deep it is.
block = lambda name: rf"(?P<{name}>\d+)\{{ .*? (?P={name})\}}"

VARIANTS, ERRORS = "NoMemory|OutOfMemory|NoSpace", "AllocError|AllocFailed"
TELLING = "abandon|print_no_memory|print_no_line|NO_MEMORY_LINE|no_memory|spawn|factory"
# What could make a value or code that the script doesn't see, and what else of std ends in
# AllocError. So does a `fmt` that fails: `format!` tells its error as AllocError. Then the calls
# that take a size in another place, or promise that more comes than there is memory for.
HIDING = either(
    """
    unsafe macro_rules include include_str include_bytes asm extern transmute zeroed Default default
    from_raw_os_error TryReserveError SpawnError RefCell Allocator Layout vars unwrap_or_default
    or_default ArrayString
    resize resize_with try_resize_with repeat repeat_n repeat_with from_elem from_fn successors
    size_hint with_capacity_and_hasher vacant map_indices map_chunks
    """
)
DERIVES = either("Clone Copy Debug Drop Eq Error Hash Ord PartialEq PartialOrd")
TOKEN = re.compile(
    r"""
    (?P<space>\s+|//[^\n]*)
  | (?P<odd>/\*|[bc]?r\#*"|r\#)
  | (?P<text>b?"(?:\\.|[^"\\])*"|b?'(?:\\.[^']*|[^'\\])')
  | '\w+ | [^\W\d]\w* | \d\w* | ::|=>|->|==|!=|<=|>=|&&|\|\||\.\.=|\.\.|.
    """,
    re.X | re.S,
)
# A function up to its body, and something like `Err(BookFault::NoMemory)`.
AFTER_NAME = r"(?:\[[^\]]*\]|[^{;\[])*"
FRONT = rf"fn \w+ {AFTER_NAME}"
WANT = rf"(?:\w+ :: )+(?:{VARIANTS})"
CONVERSION = (
    r"impl (?:< T : Drop > )?From < (?P<of>AllocError|AllocFailed < T >) > for (?P<to>\w+)"
    rf"(?: < '_ >)? (?P<impl>\d+)\{{ (?:ghost use [^;]*; )*ghost from_gives = {block('gives')} ;"
    r" fn from \( \w+ : (?P=of) \) -> (?:Self|(?P=to)) \d+\{ "
    rf"(?P=to) :: (?:(?:{VARIANTS})|\w+ \( \w+ :: from \( \w+ \) \)) \d+\}} (?P=impl)\}}"
)
# Attributes, of which `error` has a text that std's formatting fills by the fields alone; ghost
# items; and clauses of functions.
ATTRIBUTE = (
    r'# (?:! )?\[ (?:(?:cold|cycle|inline|tactic)\b[^\]]*|error \( (?:"!?"|transparent) \)'
    rf"|derive \( (?:(?:thiserror :: )?(?:{DERIVES}) (?:, )?)*\)) \] "
)
GHOST = rf"ghost (?:use [^;]*;|\w+ [:=] {block('ghost')}(?: [;,])?) "
CLAUSE = rf"({FRONT}?)(?<!-> )(?:requires|ensures) (?:\w+ )?{block('clause')} "
ENUM = rf"enum (\w+) [^{{;]*{block('enum')}"
VARIANT = rf"([{{,] )(?:{VARIANTS})(?= (?:,|\d+\}}))"
TYPES = rf"(?:struct|enum) (?!{ERRORS})\w+ [^{{(;]*(?:{block('type')}|\( .*? \) ;)|{FRONT}"
LENGTH = r"(?:\d\d?|(?:\d \* )?\w+(?: \. \w+(?: \( \))?)* \. len \( \))"
SIZE = rf"{LENGTH}(?: \+ {LENGTH})*"
SIZED = "with_capacity|reserve|reserve_exact|try_reserve|try_reserve_exact"
BEFORE = r"(?:[^][(){};]|\( [^()]*\))*"  # What stands before a range in the same brackets.
RANGES = (
    rf"(?<![\w)\]}}] )\.\.|(?: in|\[|get \() {BEFORE}\.\.| \d\d? \.\.=? \d\d? (?:\)|=>)"
    rf"| in \( {BEFORE}\.\.{BEFORE}\) \. rev \( \) \d+\{{"
)
CASE = r"(?:\w+ :: )*\w+(?: \( [\w:. ]* \))?"  # An arm's pattern, where it is a few paths.
PATTERN = rf"(?<=[{{,}}] ){CASE}(?: \| {CASE})*(?= =>| if )"


def text_of(source):
    """The tokens of a source with blanks between them, each brace with its depth before it. A string has
    `!` where it tells of want of memory; `#` also stands for what isn't read."""
    words, depth = [], 0
    for token in TOKEN.finditer(source):
        text, kind = token[0], token.lastgroup
        if text in ("{", "}"):
            depth -= text == "}"
            words.append(f"{depth}{text}")
            depth += text == "{"
        elif kind == "text":
            words.append('"!"' if re.search(VARIANTS, text) else '""')
        elif kind != "space":
            words.append("#" if kind == "odd" else text)
    return " ".join(["", *words, ""])


def code_of(source):
    """The code of a source without conversions, attributes, ghost items and contracts; and how many
    conversions it has."""
    text, count = re.subn(CONVERSION, "", text_of(source))
    text = re.sub(GHOST, "", re.sub(ATTRIBUTE, "", text))
    while (shorter := re.sub(CLAUSE, r"\1", text)) != text:
        text = shorter
    return text, count


def enums_of(code):
    """The enums that are declared here with a variant for want of memory."""
    return {found[1] for found in re.finditer(ENUM, code) if re.search(VARIANT, found[0])}


@functools.cache
def forms(enums, foreign):
    """What is allowed: forms, each with what is left in its place."""
    named = either(" ".join(sorted(enums)))
    # An import without a word that it renames or takes from elsewhere.
    hidden = rf"{VARIANTS}|{HIDING}|\*|as (?!_ |Sha2 )\w+|fmt [^;]* Error"
    hidden += rf"|(?<=use )(?:::|{either(' '.join(sorted(foreign)))}) [^;]*\b(?:{named})"
    plain = r"std :: alloc :: (?:\w+|\d+\{ \w+(?: , \w+)*(?: ,)? \d+\}) ; "
    other = rf"(?!(?:[^;]* )?(?:{ERRORS}) )[^;]*; "
    # An arm whose pattern is want of memory alone, and what hands that on.
    want = rf"(?:\w+ :: )*(?:{named}) :: (?:{VARIANTS})"
    one = rf"(?:{want}|(?:Err|Some) \( {want} \)|Err \( \( {want}(?: , \w+)+ \) \))"
    alone = rf"(?<=[{{,}}] ){one}(?: \| {one})* => "
    value = rf"(?:return )?(?:{WANT}|Err \( (?:{WANT}|AllocError) \))"
    value += r"|self \. fail \( lease , Reason :: OutOfMemory \)"
    own = rf"impl [^{{]*?\b({named})(?: < [^{{<>]* >)? {block('impl')}"
    without = lambda words: lambda found: re.sub(rf"\b(?:{words})\b", "Seen", found[0])
    return [
        (rf"\buse (?!(?:[^;]* )?(?:{hidden}) )(?:{plain}|{other})", ""),
        (ENUM, lambda found: re.sub(VARIANT, r"\1Seen", found[0])),
        (TYPES, without(ERRORS)),
        (own, lambda found: found[0].replace(" Self ", f" {found[1]} ")),
        (r'const NO_MEMORY_LINE : & \[ u8 ; 27 \] = "!"', ""),
        (rf'({alone}(?:(?:\w+|""|,|\() )*)"!"', r"\1"),
        (rf"{alone}(?:{value})(?= (?:,|\d+\}}))", "Seen => Seen"),
        (PATTERN, without(VARIANTS)),
        (rf"vec ! \[ in \w+ ; ([^;\]]*?)(?: ; {SIZE})? \]", r"\1"),
        (RANGES, lambda found: found[0].replace("..", "to")),
    ]


@functools.cache
def faults(enums):
    """What is a fault, each with its name, where nothing is left of what is allowed."""
    named = either(" ".join(sorted(enums)))
    return [
        (rf"#|\b(?:{HIDING}|ghost)\b|fmt :: Error\b", "what may hide or make a fault"),
        (r"\buse\b", "an import that renames a word, hides it or takes another"),
        (rf"\b(?:as|type) (?:{named})\b", "another type under the name of an enum"),
        ('"!"', "a text that tells of want of memory"),
        (rf"(?<!fn )(?<!const )\b(?:{TELLING})\b", "a call that tells want, or starts what may"),
        (rf"\b(?:{VARIANTS}|{ERRORS})\b", "want of memory is made here"),
        (rf"(?<!fn )\b(?:{SIZED}) (?!\( (?:\w+ , )?{SIZE} \))|\bvec !", "no sum of lengths"),
        (r"(?<!in 0 to u32 :: )(?<!in 0 to u64 :: )\bMAX\b", "the largest number"),
        (rf"\bfn len [^{{;]*\{{ (?!{SIZE} \d+\}})", "a length that is no sum of lengths"),
        (r"\.\.", "a range that may be of any length"),
        (r"\. cycle \(|\[ \( \) [;\]]|Vec < \( \)", "a list that may be of any length"),
        (r"; (?!(?:\d{1,3}|N) \])[^][{};]* \]", "an array that may be of any length"),
    ]
