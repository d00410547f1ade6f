"""What `tests/memory-sources` lets pass by name, each with its reason."""

import re


def listed(text):
    """The file, the function and the words of each entry."""
    found = re.findall(r"(?m)^(\S+) (\S+)\s+\| (.*?)(?: # .*)?$", text)
    return {(file, name.strip("-"), words) for file, name, words in found}


# The words that stand in a function of a file, once, and why they may.
PLACES = listed(
    """
sched_core/src/book.rt abandon | self . fail ( lease , Reason :: OutOfMemory )
    # what the call means: who builds may end a lease so, to whom memory was refused; no code
    # here calls it
valid_view/src/writer_end.rt append | AllocFailed { value : ( ) } . into ( )
    # left_right gives the operation back exactly where its queue could not grow
valid_view/src/shown_table.rt absorb_first | Err ( AllocFailed { value : fault } . into ( ) )
    # never reached, since the entry may follow the shown ones; Absorb cannot say so
valid_view/src/writer_end.rt reader | match self . writer . factory ( ) . reader ( ) {
    # answers AllocError where each place is in use, which is told as NoView
process_build/src/failures.rt from
    | ErrorKind :: OutOfMemory if error . raw_os_error ( ) . is_none ( ) => Failure :: NoMemory
    # an error of std's without a number of the system's is that std was refused memory
process_build/src/disk/outputs.rt most_below | Profile :: Nix => usize :: MAX , # no limit under nix
process_build/src/disk/outputs.rt new | Profile :: Nix => ( usize :: MAX , usize :: MAX ) , # the same
process_build/src/disk/removal.rt push_folders | names_at ( rt , folder , usize :: MAX ) # the same
process_build/src/walk/tree_walk.rt most_names | _ => usize :: MAX , # the same
valid_table/src/nar.rt new | if size > i64 :: MAX as u64 { # no length of an archive is as great
process_build/src/disk/kept_folders.rt note_suffix
    | kept . resize ( number . checked_add ( 1 ) . ok_or ( AllocError ) ? , None ) ?
    # the places of the leases so far; no memory has 2^64
process_build/src/process/caller.rt caller_value
    | Err ( VarError :: OutOfMemory ) => Err ( Reason :: OutOfMemory ) , # std was refused memory
process_build/src/process/processes.rt may_have_run
    | ! matches ! ( left , Err ( Reason :: NoStart | Reason :: OutOfMemory ) ) # a test of a reason
command_line/src/faults.rt - | name : "!" # the name of a fault, in the table of all of them
command_line/src/arguments.rt cores | . range ( 0 ..= 65_535 ) # the numbers that an option takes
nix_realise/src/archives/input.rt read_archive | [ 0 ; PIECE ] # the bytes of a piece, 65,536
nix_realise/src/runs/tools.rt processors | unwrap_or ( u16 :: MAX ) # no size: a number told
nix_realise/src/cli/program.rt print_usage
    | if fault . kind ( ) == ErrorKind :: OutOfMemory { return print_no_memory ( err ) ; }
    # clap was refused memory
nix_realise/src/cli/program.rt refuse_words | Err ( _ ) => print_no_memory ( err )
    # the fault of a call whose only fault is AllocError
nix_realise/src/cli/program.rt print_stop
    | Err ( refused ) => return print_no_line ( refused , err )
    # there was no memory for the line; its call's fault is handed over
nix_realise/src/cli/program.rt print_no_line
    | match print_bytes ( NO_MEMORY_LINE , err ) { Ok ( ( ) ) => Exit :: NoMemory
    # what the call means
nix_realise/src/cli/program.rt print_no_memory | print_bytes ( NO_MEMORY_LINE , err )
    # what the call means
nix_realise/src/runs/summary.rt journal_bytes | map_err ( | _ | AllocError )
    # the only fault of the call is want of memory
nix_realise/src/cli/program.rt report | Err ( _ ) => Err ( RunError :: NoMemory ) # the same
nix_realise/src/runs/realise.rt write_unsettled
    | Err ( refused ) => JournalOutcome :: no_memory ( refused )
    # the only fault of the call is want of memory
nix_realise/src/cli/process.rt run_process | Err ( _ ) => print_no_memory ( err )
    # there was no memory for the buffer of standard output
nix_realise/src/cli/process.rt run_arguments | Err ( _ ) => print_no_memory ( err )
    # arguments that are text can be refused for want of memory alone
nix_realise/src/cli/process.rt run_texts | Err ( _ ) => print_no_memory ( err )
    # the fault of a call whose only fault is AllocError
store_run/src/run.rt run_workers
    | let _ = scope . spawn ( move || work ( rt , alloc , locked , reader , & builder ) )
    # a thread that can't be started is told as ThreadFault, if all of them can't
store_run/src/refusal.rt - | impl From < AllocError > for RefusedCall # hands it on
store_run/src/refusal.rt from | fault : BookFault :: NoMemory # the same
store_run/src/kept_run.rt run_beside
    | let _ = scope . spawn ( move || keep_on ( rt , alloc , locked , text , sink ) )
    # without its thread nothing is kept while the run goes on, and the run ends as ever
nix_realise/src/words/run_trace.rt lease_at | return Err ( AllocError )
    # memory was refused when the times of a lease were noted
process_build/src/process/start.rt start | match command . spawn ( processes ) {
    # starts a process; its error is std's, and goes through Failure
nix_names/src/base32.rt base32_text | with_capacity ( alloc , len ) # the characters of a text
nix_names/src/base32.rt bytes_of | with_capacity ( alloc , n )
    # at most the characters of a text (`within`)
process_build/src/disk/kept_folders.rt new | with_capacity ( alloc , count ) # derivations
process_build/src/disk/outputs.rt - | [ u8 ; MAX_PIECE ] # the bytes of a piece, 65,536
process_build/src/disk/outputs.rt new | [ 0 ; MAX_PIECE ] # the same
process_build/src/disk/outputs.rt names | [ 0 ; NAMES_AT_ONCE ] # 4,096 bytes of names
process_build/src/disk/left_paths.rt left_paths | [ 0 ; NAMES_AT_ONCE ] # the same
process_build/src/walk/tree_walk.rt - | [ u8 ; MAX_PIECE ] # the bytes of a piece, 65,536
process_build/src/walk/tree_walk.rt new | [ 0 ; MAX_PIECE ] # the same
process_build/src/walk/entry_names.rt read_names | [ 0 ; NAMES_AT_ONCE ] # 4,096 bytes of names
process_build/src/observe/counts.rt new | unsettled : usize :: MAX # no size: no count reaches it
process_build/src/observe/time.rt micros_of | unwrap_or ( u64 :: MAX )
    # no size: the greatest time that is told
ref_scan/src/index.rt sieve_of | vec ! [ in alloc ; NONE ; slots ] # at most 1,048,576
valid_view/src/reader.rt records_in | Err ( _ ) => Err ( ViewFault :: NoMemory )
    # the fault of a call whose only fault is AllocError
builder_start/src/addresses.rt address_text
    | to_base32 ( alloc , digest . bytes ( ) ) else { return Err ( AllocError ) ; }
    # the only fault of the call is want of memory
builder_start/src/rows.rt closure | Err ( _ ) => Err ( AllocError ) ,
    # the roots are valid, so the only fault of the call is want of memory
builder_start/src/graphs.rt graph_of
    | paths_of ( alloc , rows , texts ) else { return Err ( AllocError ) ; }
    # the texts are paths of the records, so the only fault is want of memory
builder_start/src/graphs.rt graph_of
    | graph_from ( alloc , rows , whole , & roots ) else { return Err ( AllocError ) ; }
    # the graph may be asked for, so the only fault is want of memory
structured_attrs/src/checks.rt limit_of_float | n == u64 :: MAX # a double of 2^64 or more
structured_attrs/src/checks.rt wrap | u64 :: MAX - ( n . unsigned_abs ( ) - 1 ) # 2^64 less a number
structured_attrs/src/attributes.rt json_text | with_capacity ( alloc , 128 ) # room to begin with
structured_attrs/src/decimal.rt float_text
    | if ! x . is_finite ( ) { return Err ( AllocError ) ; }
    # never reached: no value of JSON is such a double
structured_attrs/src/decimal.rt float_text
    | if ! are_trimmed ( & decimal . digits ) { return Err ( AllocError ) ; }
    # never reached, since Grisu2 gives such digits; no contract says so
structured_attrs/src/decimal.rt float_text
    | if ! is_text_of ( & text , x ) { return Err ( AllocError ) ; }
    # never reached, since the digits are those of the double; no contract says so
structured_attrs/src/decimal.rt push_zeros | vec ! [ in * out . allocator ( ) ; "" ; n ]
    # at most 15 zeros
structured_attrs/src/grisu.rt small | i32 :: try_from ( n ) . unwrap_or ( i32 :: MAX )
    # no size: no number of digits is so large
structured_attrs/src/graph.rt hash_text
    | to_base32 ( alloc , & nar . hash ( ) ) else { return Err ( AllocError ) ; }
    # the only fault of the call is want of memory
structured_attrs/src/writing.rt write_number | _ => Err ( AllocError ) , # never reached
structured_attrs/src/writing.rt write_float | _ => Err ( AllocError ) ,
    # never reached, since the text is a numeral; no contract says so
build_outcome/src/links.rt no_links | with_capacity ( alloc , count ) # a list for each output
run_states/src/users.rt open
    | vec ! [ in alloc ; Edge { user : 0 , index : 0 } ; pairs_in ( plan , twins ) ]
    # derivations with who waits for them
valid_table/src/path_table/row_set.rt new | vec ! [ in alloc ; 0u64 ; count / 64 + 1 ]
    # a bit for each row
valid_table/src/journal.rt reserve | entries . reserve ( paths ) # what the caller asks for
valid_table/src/journal.rt reserve | table . reserve ( paths ) # the same
valid_table/src/path_table/table.rt reserve | rows . reserve ( paths ) # what the caller asks for
valid_view/src/prefix.rt len | fn len ( & self ) -> u64 { self . count }
    # the entries of a list that is there
valid_view/src/opening.rt make_readers | with_capacity ( alloc , count )
    # the number of readers, at most 64
"""
)
