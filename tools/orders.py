"""Bodies that do steps in another order, for `tools/wrong-bodies orders`. The types have to refuse each.

In proc_chain they run a note before its taking, or take two notes and then run two. In each table they look at it after an end
found no other, or do so without counting. A body in the right order, with the same words, has to compile. The contracts of
processor keep the order of its steps: the wrong bodies of that crate do them in another.
"""

# The compiler's words where a body asks for what is private, uses what was moved, makes or copies a type that has no such
# maker, or lets go of what has to be used.
NO_FIELD, NO_NAME, NO_VALUE = "error[private-field]", "so its constructor is private too", "error[borrow-e0382]"
LET_GO = "error[linear-value-let-go]"
NO_ITEM = "is private"
NO_MAKER, NO_COPY = "the item `default` exists for", "is not `Clone`"
CHAIN_HEAD = """//! Bodies in another order.
use crate::quaject::Quaject;
use crate::rule::{ChainRule, Pact, Shape, View};
use crate::running::{Taken, Turn, exchange_gate, run_held, store_tail};
use atomic_table::{Seat, Shared};
use std::snapshot::Snapshot;

#[test]
fn nothing() {}
"""
WORDS = "words: &Shared<Q, View, Shape<Pact<Q::World, Q>>, ChainRule>, seat: &mut Seat<Q, View>"
SERVES = f"fn {{}}<Q: Quaject>({WORDS}, world: &Q::World, turn: Turn, tail: u64, note: u16) -> Turn"
CHAIN_PRIVATE = [
    ("run_before_the_take", SERVES, """let turn = run_held(words, seat, world, Taken { note, end: Snapshot::of(seat), turn });
        let _tail = tail; turn"""),
    ("another_note", SERVES, "let mut taken = store_tail(words, seat, turn, tail, note); taken.note = 0; run_held(words, seat, world, taken)"),
    ("taken_and_not_run", SERVES, "let _world = world; store_tail(words, seat, turn, tail, note).turn"),
    ("turn_of_nothing", SERVES, "let taken = store_tail(words, seat, Turn(()), tail, note); let _ran = run_held(words, seat, world, taken); turn"),
]
CHAIN_LET_GO = [
    ("taken_and_let_go", SERVES.removesuffix(" -> Turn"), "let _world = world; let _taken = store_tail(words, seat, turn, tail, note);"),
    ("turn_let_go", SERVES.removesuffix(" -> Turn"), "let _turn = run_held(words, seat, world, store_tail(words, seat, turn, tail, note));"),
]
CHAIN_MOVED = [
    ("two_takes_then_two_runs", SERVES.replace("-> Turn", "-> (Turn, Turn)"), """let first = store_tail(words, seat, turn, tail, note);
        let second = store_tail(words, seat, turn, tail + 1, note); (run_held(words, seat, world, first), run_held(words, seat, world, second))"""),
    ("one_note_run_twice", SERVES.replace("-> Turn", "-> (Turn, Turn)"), """let taken = store_tail(words, seat, turn, tail, note);
        (run_held(words, seat, world, taken), run_held(words, seat, world, taken))"""),
    ("left_before_the_run", SERVES.replace("-> Turn", "-> (Taken<Q>, Option<Turn>)"),
        "let _world = world; let taken = store_tail(words, seat, turn, tail, note); (taken, exchange_gate(words, seat, turn))"),
]
CHAIN_RIGHT = [("right_order", SERVES, "let taken = store_tail(words, seat, turn, tail, note); run_held(words, seat, world, taken)")]
# A body that opens, makes, copies, lets go or uses twice the end that found no other, as a table is closed, in the words of
# each crate.
CLOSES = """//! Bodies in another order.
use crate::rule::{rule};
use crate::steps::{look};
use atomic_table::{{Closed, Seat, Shared, Table}};
use std::alloc::Global;
use std::marker::Brand;
use table_theory::last_end::{{Last, close_by, count}};
{more}
#[test]
fn nothing() {{}}
"""


def closing(rule, look, item="()", bound="", more="", rest="", shape="Shape"):
    """The head, the body in the right order and the others of a crate, by its own names."""
    named = CLOSES.format(rule="{" + rule.partition("<")[0] + ", Shape, View" + (", Pact" if "Pact" in shape else "") + "}", look=look, more=more)
    last, seat, made = f"Last<{item}, View>", f"Seat<{item}, View>", f"Closed<{item}, Global>"
    counts = "count::<_, _, _, _, Brand>"
    words, table = f"&Shared<{item}, View, {shape}, {rule}>", f"Table<{item}, View, {shape}, {rule}, Global>"
    head = f"fn {{}}{bound}"
    right = [("right_order", f"{head}(table: {table}, seat: {seat}) -> Result<{made}, ({table}, {seat})>",
        f"match {counts}(&table.shared, seat, 0) {{ Ok(last) => Ok(close_by(table, last)), Err((seat, _ends)) => Err((table, seat)) }}")]
    opened = [
        ("looks_again", f"{head}(words: {words}, last: {last}) -> {last}", f"let mut last = last; let _found = {look}(words, &mut last.seat{rest}); last"),
        ("opened_last", f"{head}(last: {last}) -> {seat}", "let Last { seat } = last; seat"),
        ("made_last", f"{head}(seat: {seat}) -> {last}", "Last { seat }"),
    ]
    counted = [("counts_elsewhere", f"{head}(words: {words}, seat: &mut {seat}) -> u64", f"words.load::<table_theory::last_end::Counts<{shape}, {rule}, Brand>>(seat, 0)")]
    derived = [("derived_last", f"{head}() -> {last}", "Last::default()")]
    copied = [("copied_last", f"{head}(it: &{last}) -> {last}", "it.clone()")]
    let_go = [("last_let_go", f"{head}(words: {words}, seat: {seat})", f"let _last = {counts}(words, seat, 0);")]
    twice = [("one_last_twice", f"{head}(table: {table}, other: {table}, last: {last}) -> ({made}, {made})", "(close_by(table, last), close_by(other, last))")]
    return named, right, [(opened, (NO_FIELD, NO_NAME)), (counted, (NO_ITEM,)), (derived, (NO_MAKER,)), (copied, (NO_COPY,)), (let_go, (LET_GO,)), (twice, (NO_VALUE,))]


# Each crate, its module before the added one, that one's head, its body in the right order, and all others with the errors that
# have to refuse each. The others are a few at a time, since the compiler reports 20 errors at most.
TRIALS = [
    ("proc_chain", "layout", CHAIN_HEAD, CHAIN_RIGHT, [(CHAIN_PRIVATE, (NO_FIELD, NO_NAME)), (CHAIN_LET_GO, (LET_GO,)), (CHAIN_MOVED, (NO_VALUE,))]),
    ("proc_chain", "layout", *closing("ChainRule", "load", "Q", "<Q: Quaject>", "use crate::quaject::Quaject;\n", ", 0", shape="Shape<Pact<Q::World, Q>>")),
    ("claim_queue", "layout", *closing("ClaimRule<Free>", "load_head", more="use table_theory::protocol::Free;\n")),
    ("meters", "layout", *closing("MeterRule", "load_clock")),
    ("thread_table", "hand", *closing("ThreadRule", "load_head", rest=", 0")),
]
