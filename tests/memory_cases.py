"""What `tests/memory-sources --self-test` plants: bugs that have to be found, and good code. `R`,
`N` and `F` stand for types that no rule looks at."""


def cases(text):
    """The code of each case by its name. A line that is indented goes on with the one before."""
    return dict(line.split(": ", 1) for line in text.strip().replace("\n    ", " ").splitlines())


# Bugs that make want of memory up. Each is planted at the end of a file.
PLANTED = cases(
    r"""
a catch-all arm: fn p(r: R) -> R { match r { Ok(n) => Ok(n), Err(_) => Err(X::NoMemory) } }
a named other fault: fn p(r: R) -> R { match r { Err(BookFault::BadName | BookFault::NoMemory) =>
    Err(BookFault::NoMemory), other => other} }
an alternative: fn p(f: F) -> F { match f { BookFault::NoMemory | BookFault::NoView =>
    BookFault::NoMemory, other => other } }
an early return: fn p(n: usize) -> Result<(), X> ensures { IfErr result (λ e. e ≡ NoMemory) } { if n
    > 1024 { return Err(X::NoMemory); } Ok(()) }
a closure: fn p(r: R) -> R { r.map_err(|_| AllocError) }
a closure's fault: fn p(r: R) -> R { r.map_err(|_| X::NoMemory) }
an option: fn p(n: N) -> R { n.ok_or(X::NoMemory) }
another value for a missing one: fn p(f: Option<X>) -> X { f.unwrap_or(X::NoMemory) }
a let with else: fn p(n: N) -> R { let Some(n) = n else { return Err(X::NoMemory); }; Ok(n) }
a conversion of another error: impl From<X> for Y { fn from(_: X) -> Self { Y::NoMemory } }
a conversion to std's error: impl From<X> for AllocError { fn from(_: X) -> Self { Self } }
a conversion to another variant: impl From<AllocError> for X { ghost from_gives = { λ _ fault. fault
    ≡ NoMemory }; fn from(error: AllocError) -> Self { keep(error); X::NoMemory } }
a guard: fn p(e: F) -> F { match e { fault if fault.number() < 9 => Reason::OutOfMemory, _ =>
    Reason::Killed } }
a value in a guard: fn p(e: BookFault) -> bool { match e { fault if tell(BookFault::NoMemory) =>
    true, _ => false } }
a value kept for later: fn p() -> bool { let fault = X::NoMemory; tell(fault) }
a fault put in another's place: fn p(f: &mut X) -> X { mem::replace(f, X::NoMemory) }
a conversion of a bound error: impl<T: Drop> From<Held<T>> for Y { ghost from_gives = { λ _ fault.
    fault ≡ NoMemory }; fn from(_: Held<T>) -> Self { Y::NoMemory } }
a conversion without its clause: impl From<AllocError> for Z { fn from(_: AllocError) -> Self {
    Z::NoMemory } }
a value within a tuple: fn p(op: Op) -> Result<(), (Op, AllocError)> { Err((op, AllocError)) }
an argument: fn p(b: &mut Book) { b.fail(Reason::OutOfMemory); }
a lease abandoned for another cause: fn p(b: &mut Book, l: Lease) { let _ = b.abandon(l); }
an error that holds what came back: fn p(v: u8) -> AllocError { AllocFailed { value: v }.into() }
another name for std's error: use std::alloc::AllocError as Refused; fn p(n: u8) -> R { Err(Refused)
    }
std's other name for it: use std::collections::TryReserveError; fn p() -> TryReserveError {
    TryReserveError }
another name for a variant: use crate::fault::X::NoMemory as Short; fn p() -> X { Short }
a variant imported: use crate::fault::X::NoMemory; fn p(r: u8) -> u8 { r }
all variants imported: use crate::fault::X::*; fn p(r: u8) -> u8 { r }
an own type by std's name: pub struct AllocError; fn p(n: u8) -> u8 { n }
std's name from elsewhere: use crate::own::AllocError; fn p(n: u8) -> u8 { n }
another name of a type: type Refused = AllocError; fn p() -> Refused { Refused {} }
a borrowed value: fn p(n: u8) -> R { let e = *&AllocError; Err(e) }
a value with braces: fn p(n: u8) -> R { Err(AllocError {}) }
a field of a struct: fn p() -> Passed { Passed { fault: BookFault::NoMemory } }
a changed copy of a struct: fn p(old: Passed) -> Passed { Passed { fault: BookFault::NoMemory, ..old
    } }
a variant that holds it: fn p() -> Stop { Stop::Run(RunFault::NoMemory) }
a comparison: fn p(a: X) -> bool { a < X::NoMemory }
an equality that keeps its operand: fn p(a: X) -> X { let b = a == X::NoMemory.kept(); a }
a constant: const WANT: X = X::NoMemory; fn p() -> X { WANT }
a static: static WANT: X = X::NoMemory; fn p() -> &'static X { &WANT }
a constant by the variant's name: impl Y { const NoMemory: Y = Y::BadName; }
a constant of a trait: trait Faulty { const NoMemory: Self; }
its own type's name: impl X { fn p() -> Self { Self::NoMemory } }
a variant by default: #[derive(Default)] pub enum Q { #[default] NoMemory, Other }
a default: impl Default for X { fn default() -> Self { X::Other } }
a variant of a number: pub enum Q { NoMemory = 9, Other = 10 }
a macro: macro_rules! want { () => { X::Killed } }
a block comment: fn p() -> u8 { /* /* */ 7 /* */ }
a raw string: fn p() -> u8 { let a = r"\"; 7 }
a pattern that binds everything: fn p(r: R) -> R { match r { Ok(n) => Ok(n), Err(NoMemory) =>
    Err(BookFault::NoMemory) } }
a pattern of std's name that binds everything: fn p(r: R) -> R { match r { Ok(n) => Ok(n),
    Err(AllocError) => Err(AllocError) } }
an enum of others: fn p(r: R) -> R { match r { Ok(n) => Ok(n), Err(other::Full::NoSpace) =>
    Err(BookFault::NoMemory) } }
a system's error: fn p(k: ErrorKind) -> Reason { match k { ErrorKind::OutOfMemory =>
    Reason::OutOfMemory, _ => Reason::Killed } }
an error made of a kind: fn p() -> io::Error { io::Error::from(ErrorKind::OutOfMemory) }
an error made of a number: fn p() -> io::Error { io::Error::from_raw_os_error(12) }
a block before the arms: fn p(n: u8) -> R { match { Err(BookFault::NoMemory) } { r => r } }
a clause that is none: fn p(n: u8) -> ensures { let x = ensures { fault: BookFault::NoMemory }; x }
a ghost item that is none: fn p(n: u8) -> X { ghost + X::NoMemory }
an arm within an arm: fn p(r: R) -> R { match r { Err(BookFault::NoMemory) => match p(r) { Ok(n) =>
    Err(BookFault::NoMemory), other => other }, other => other} }
a wanted fault kept in its arm: fn p(r: R, kept: &mut BookFault) -> u8 { match r {
    Err(BookFault::NoMemory) => { *kept = BookFault::NoMemory; 7 } _ => 8 } }
a room without end: fn p(alloc: Global) -> R { Ok(Vec::with_capacity(alloc, usize::MAX)?) }
a room of a large constant: fn p(v: &mut Vec<u8>) -> R { v.reserve(1 << 62) }
a room of any size: fn p(v: &mut Vec<u8>, many: usize) -> R { v.reserve_exact(many) }
a room by steps: fn p(v: &mut Vec<u8>) -> R { v.reserve(v.len() * 1000000) }
a list without end: fn p(alloc: Global, many: usize) -> R { Ok(vec![in alloc; 0; many]?) }
the largest number kept: fn p() -> usize { let n = usize::MAX; n }
a text whose writing fails: impl Display for Q { fn fmt(&self, f: &mut Formatter) -> fmt::Result {
    Err(fmt::Error) } }
its fault imported: use std::fmt::{Display, Error, Formatter}; fn p() -> Error { Error }
a list of any length: fn p(alloc: Global, many: usize) -> R { Vec::from_elem(alloc, 0, many) }
a thread that can't start: fn p<R: Threads>(rt: &R, s: &Scope) -> R { s.spawn(|| 7)?; Ok(()) }
a reader without a place: fn p(line: &Line) -> Result<Sight, AllocError> {
    Ok(line.writer.factory().reader()?) }
a line printed for another cause: fn p(err: &mut E, r: Result<u8, Y>) -> Status { match r { _ =>
    print_no_memory(err) } }
a length that a type makes up: struct Wide; impl Wide { pub fn len(&self) -> usize { 1 << 62 } } fn
    p(v: &mut Vec<u8>, w: &Wide) -> R { v.reserve(w.len()) }
the length of a range: fn p(v: &mut Vec<u8>) -> R { let all = 0..1 << 62; v.reserve(all.len()) }
the length of a range after a loop: fn p(v: &mut Vec<u8>, w: &[u8]) -> R { for x in w { step(x); }
    let all = 0..w[0] << 62; v.reserve(all.len()) }
the length of an array of nothing: fn p(v: &mut Vec<u8>) -> R { let all = [(); 4611686018427387904];
    v.reserve(all.len()) }
a list collected from a long range: fn p(alloc: Global, n: usize) -> R { (0..n).map(|_|
    7).collect(alloc) }
a loop over a list of a long range: fn p(alloc: Global, n: usize) -> R { for x in
    (0..n).collect::<Vec<usize>>(alloc)? { step(x); } Ok(()) }
a list collected from a range without end: fn p(alloc: Global) -> R { (0..).collect(alloc) }
an item again and again: fn p(alloc: Global) -> R { iter::repeat(7).take(1 << 62).collect(alloc) }
a list again and again: fn p(alloc: Global, v: &[u8]) -> R { v.iter().cycle().take(1 <<
    62).collect(alloc) }
the length of a list of nothing: fn p(v: &mut Vec<u8>, many: Vec<()>) -> R { v.reserve(many.len()) }
a list made longer: fn p(v: &mut Vec<u8>) -> R { v.resize(1 << 62, 0) }
room exactly for any size: fn p(v: &mut Vec<u8>, many: usize) -> R { v.try_reserve_exact(many) }
an element without end: fn p(alloc: Global) -> Result<Vec<[u64; 1152921504606846976]>, AllocError> {
    Ok(Vec::with_capacity(alloc, 1)?) }
a list that promises too much: impl Iterator for Promising { fn size_hint(&self) -> (usize,
    Option<usize>) { (1 << 62, None) } }
std's fmt under another name: use std::fmt as shown; impl Display for Q { fn fmt(&self, f: &mut
    Formatter) -> shown::Result { Err(shown::Error) } }
its fault imported behind another name: use std::fmt::{Display as Shown, Error}; impl Shown for Q {
    fn fmt(&self, f: &mut Formatter) -> Result<(), Error> { Err(Error) } }
its fault by default: impl Display for Q { fn fmt(&self, f: &mut Formatter) -> fmt::Result {
    Err(None .unwrap_or_default()) } }
a text longer than its place: use arrayvec::ArrayString; impl Display for Q { fn fmt(&self, f: &mut
    Formatter) -> fmt::Result { write!(ArrayString::<1>::new(), "too long") } }
code in an attribute: #[derive(Debug, Drop, Error)] pub enum Q { #[error("{}", return Err(fail()))]
    Other }
a raw string of C's: fn p() -> u8 { let a = cr"\"; 7 }
a value after the comma of types: fn p(r: R) -> u8 { match r { Ok(_) => told::<u8, X>(X::NoMemory),
    Err(_) => 8 } }
a closure that is an arm: fn p(r: R) -> F { match r { Ok(_) => |a, b| X::NoMemory, Err(_) => other }
    }
a system's error by its own type: impl Told for ErrorKind { fn reason(self) -> Reason { match self {
    Self::OutOfMemory => Reason::OutOfMemory, _ => Reason::Killed } } }
a type that a trait leaves open: trait Told { fn reason(self) -> Reason { match self {
    Self::OutOfMemory => Reason::OutOfMemory, _ => Reason::Killed } } }
another type by an enum's name: use std::io::ErrorKind as BookFault; fn p(k: BookFault) -> Reason {
    match k { BookFault::OutOfMemory => Reason::OutOfMemory, _ => Reason::Killed } }
another crate's type by an enum's name: use indexmap::BookFault; fn p(k: BookFault) -> Reason {
    match k { BookFault::OutOfMemory => Reason::OutOfMemory, _ => Reason::Killed } }
a type declared by an enum's name: type BookFault = ErrorKind; fn p(k: BookFault) -> Reason { match
    k { BookFault::OutOfMemory => Reason::OutOfMemory, _ => Reason::Killed } }
the words of want for another cause: fn p(r: R, out: &mut Vec<u8>) -> R { match r { Ok(_) => Ok(()),
    Err(_) => write_name(b"NoMemory", out) } }
the line of want written out: fn p(err: &mut E) -> io::Result<()> { print_bytes(b"nix_realise: run:
    NoMemory ", err) }
a journal kept for another cause: fn p(r: Result<Vec<u8>, Stop>) -> JournalOutcome { match r { Ok(_)
    => JournalOutcome::no_book(), Err(_) => JournalOutcome::no_memory() } }
code of another file: include!("more.txt");
a module of another file: #[path = "more.txt"] mod more;
"""
)

# Bugs that change a line: the file, a part of the line, and what stands in its place.
EDITED = cases(
    r"""
a listed size in another function: nix_names/src/base32.rt
    | // How many characters the text of `n` bytes has.
    | fn p(alloc: Global, len: usize) -> Result<Vec<u8>, AllocError> {
    Ok(Vec::with_capacity(alloc, len)?) }
a second lease failed where one is listed: sched_core/src/book.rt
    | self.fail(lease, Reason::OutOfMemory)
    | if lease.number() > 9 { return self.fail(lease, Reason::OutOfMemory); }
    self.fail(lease, Reason::OutOfMemory)
a listed place for another cause: process_build/src/failures.rt
    | ErrorKind::OutOfMemory if error.raw_os_error().is_none() => Failure::NoMemory
    | ErrorKind::OutOfMemory => Failure::NoMemory
a variant with another meaning: run_states/src/fault.rt |     NoMemory, |     NoMemory(u8),
"""
)

# Code that has to pass.
ALLOWED = cases(
    r"""
an arm of want alone: fn p(r: Result<u8, BookFault>) -> Result<u8, RunFault> { match r { Ok(n) =>
    Ok(n), Err(BookFault::NoMemory) => Err(RunFault::NoMemory), Err(_) => Err(RunFault::Other) } }
an arm that returns: fn p(r: Result<u8, BookFault>) -> Result<u8, RunFault> { let n = match r {
    Ok(n) => n, Err(BookFault::NoMemory) => return Err(RunFault::NoMemory), Err(_) => unreachable!()
    }; Ok(n) }
two enums' want: impl Kept<'_> for BookFault { fn p(f: BookFault) -> RunFault { match f {
    BookFault::NoMemory | Self::NoMemory => RunFault::NoMemory, _ => RunFault::Other } } }
want that comes with what was lent: fn p(b: &mut Book) -> LeaseEnd { match b.finish() {
    Err((BookFault::NoMemory, lease, _checked)) => self.fail(lease, Reason::OutOfMemory), _ =>
    End::Other } }
want to std's error: fn p(r: Result<u8, BookFault>) -> Result<u8, AllocError> { match r { Ok(n) =>
    Ok(n), Err(BookFault::NoMemory) => Err(AllocError), Err(_) => unreachable!() } }
a number and a word: fn p(f: &BookFault, out: &mut Vec<u8>) -> u8 { match f { BookFault::NoMemory =>
    write(b"NoMemory", out), _ => 7 } }
an alternative that makes nothing: fn p(s: &Stop) -> &[u8] { match s { Stop::Run(_) | Stop::NoMemory
    | Stop::Unwritable => b"run", _ => b"" } }
a fault handed on whole: fn p(r: Result<u8, BookFault>) -> Result<u8, BookFault> { match r { Ok(n)
    => Ok(n), Err(fault) => Err(fault) } }
a conversion: impl From<AllocError> for X { ghost from_gives = { λ _ fault. fault ≡ NoMemory }; fn
    from(_: AllocError) -> Self { X::NoMemory } } #[derive(Debug, Drop)] pub enum X { NoMemory,
    Other(u8) }
a conversion of an error that hands back: impl<T: Drop> From<AllocFailed<T>> for Stop<'_> { ghost
    from_gives = { λ _ fault. fault ≡ NoMemory }; fn from(_e: AllocFailed<T>) -> Self {
    Stop::NoMemory } }
types: use std::alloc::{AllocError, Global}; pub struct Returned { pub op: Op, pub error: AllocError
    } pub enum Refusal { NoMemory, NoPlace(AllocError) } fn p(op: Op, line: &Result<String,
    AllocError>) -> Result<Option<([u8; 32], u8)>, (Op, AllocFailed<Op>)> requires { n ≡ 7 } ensures
    err { IfErr result (λ e. e ≡ BookFault.NoMemory) } { Ok(None) }
sizes: fn p(alloc: Global, v: &mut Vec<u8>, dir: &Dir) -> Result<Vec<u8>, AllocError> {
    v.reserve(1)?; let all = vec![in alloc; false; dir.rows().len()]?; for _ in 0..u64::MAX {
    step(); } Ok(Vec::with_capacity(alloc, 2 * v.len() + dir.text.len() + 1)?) }
ranges: fn p(n: usize, v: &[u8], f: &dyn F) -> u8 { for d in (0..n).rev() { step(d); } for d in
    v.len()..n { step(d); } let head = v.get(..n).unwrap_or(&v[1..n]); match head { [b'0'..=b'9',
    rest @ ..] => f.range(1..=64), _ => 7 } }
its own enum's want: impl<T: Drop> Kept<T> for crate::fault::BookFault { fn p(self) -> RunFault {
    match self { Self::NoMemory => RunFault::NoMemory, _ => RunFault::Other } } }
arrays: fn p(a: [u8; 32]) -> [Option<u8>; 3] { [None; 3] }
a list of given values: fn p(alloc: Global) -> Result<Vec<u8>, AllocError> { Ok(vec![in alloc; 7,
    8]?) }
"""
)
