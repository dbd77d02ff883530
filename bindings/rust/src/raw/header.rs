//! Compares the numbers and the structs of this crate with those of the headers, and the version with the library's.

use super::NUMBERS;
use std::collections::BTreeMap;
use std::ffi::CStr;
use std::fs;
use std::mem::offset_of;
use std::path::Path;

/// The texts of the headers.
fn headers() -> Vec<String> {
    let here = Path::new(env!("CARGO_MANIFEST_DIR"));
    let folders = ["../include", "../../include"].map(|folder| here.join(folder));
    let paths = folders.iter().flat_map(|folder| ["synthesis.h", "synthesis/raw.h"].map(|name| folder.join(name)));
    paths.filter_map(|header| fs::read_to_string(header).ok()).collect()
}

/// The numbers of the headers: each `SYNTH_NAME = number`, without `SYNTH_`.
fn header_numbers() -> BTreeMap<String, i64> {
    let mut numbers = BTreeMap::new();
    for text in headers() {
        for (name, after) in text.split("SYNTH_").skip(1).filter_map(|rest| rest.split_once(" = ")) {
            let digits = after.split(|c: char| c != '-' && !c.is_ascii_digit()).next().unwrap_or_default();
            if let (true, Ok(number)) = (is_name(name.trim_end()), digits.parse()) {
                let before = numbers.insert(name.trim_end().to_owned(), number);
                assert!(before.is_none_or(|before| before == number), "two numbers of SYNTH_{name}");
            }
        }
    }
    numbers
}

fn is_name(name: &str) -> bool {
    !name.is_empty() && name.bytes().all(|byte| byte == b'_' || byte.is_ascii_uppercase())
}

#[test]
fn each_number_is_that_of_the_header() {
    let had: BTreeMap<_, _> = NUMBERS.iter().map(|(name, number)| ((*name).to_owned(), *number)).collect();
    assert_eq!(had.len(), NUMBERS.len(), "a name twice");
    assert_eq!(had, header_numbers());
}

/// How a struct lies in memory.
#[derive(Debug, Default, PartialEq, Eq)]
struct Layout {
    size: usize,
    align: usize,
    /// The name of each field, where it begins, and its size.
    fields: Vec<(String, usize, usize)>,
}

impl Layout {
    /// Adds a field as the C compilers of x86-64 Linux do.
    fn add(&mut self, name: &str, size: usize, align: usize) {
        let at = self.size.next_multiple_of(align);
        self.fields.push((name.to_owned(), at, size));
        self.size = at + size;
        self.align = self.align.max(align);
    }
}

/// The layouts of the structs that the headers define, by their names.
fn header_layouts() -> BTreeMap<String, Layout> {
    let mut layouts = BTreeMap::<String, Layout>::new();
    // raw.h declares all structs that its calls take, and defines those of its own.
    for text in headers() {
        for definition in text.split("\nstruct ").skip(1) {
            let Some((name, rest)) = definition.split_once(" {\n") else { continue };
            let (body, _) = rest.split_once("};").unwrap();
            let mut layout = Layout::default();
            for line in body.lines() {
                let Some((declared, _)) = line.trim().split_once(';') else { continue };
                add_fields(&mut layout, declared, &layouts);
            }
            layout.size = layout.size.next_multiple_of(layout.align);
            layouts.insert(name.to_owned(), layout);
        }
    }
    layouts
}

/// Adds fields that are declared in one line, as in `uint64_t put, taken` or `uint64_t gauges[8]`.
fn add_fields(layout: &mut Layout, declared: &str, others: &BTreeMap<String, Layout>) {
    let (of, names) = match declared.strip_prefix("struct ").unwrap_or(declared).split_once(' ') {
        Some((of, names)) => (of, names),
        None => panic!("no declaration: {declared}"),
    };
    for name in names.split(',').map(str::trim) {
        let (size, align) = match of {
            _ if name.starts_with('*') => (8, 8),
            "bool" | "uint8_t" => (1, 1),
            "uint16_t" => (2, 2),
            "int32_t" | "uint32_t" | "synth_code" => (4, 4),
            "uint64_t" | "size_t" => (8, 8),
            other => (others[other].size, others[other].align),
        };
        let (name, count) = match name.trim_start_matches('*').trim_end_matches(']').split_once('[') {
            Some((name, count)) => (name, count.parse().unwrap()),
            None => (name.trim_start_matches('*'), 1),
        };
        layout.add(name, size * count, align);
    }
}

/// The size of what a function reads.
fn size_of_field<T, F>(_: impl Fn(&T) -> &F) -> usize {
    size_of::<F>()
}

/// The layouts of types of this crate, each under the name that its struct has in C.
macro_rules! layouts {
    ($($c:ident: $name:ident { $($field:ident),+ $(,)? })+) => {[
        $((
            stringify!($c).to_owned(),
            Layout {
                size: size_of::<super::$name>(),
                align: align_of::<super::$name>(),
                fields: vec![$((
                    stringify!($field).to_owned(),
                    offset_of!(super::$name, $field),
                    size_of_field(|value: &super::$name| &value.$field),
                )),+],
            },
        )),+
    ]};
}

#[test]
fn each_struct_lies_in_memory_as_that_of_the_header() {
    let had = BTreeMap::from(layouts! {
        synth_batch: Batch { at, full }
        synth_queue: Queue { at, full }
        synth_chain: Chain { at, full }
        synth_seat: Seat { at, full }
        synth_line_in: Input { at, full }
        synth_line_out: Output { at, full }
        synth_hand: Hand { at, full }
        synth_positions: Positions { head, tail }
        synth_batch_status: BatchStatus { tail, published, head, shut }
        synth_batch_totals: BatchClosed { put, taken, left, broken }
        synth_queue_status: QueueStatus { tail, head, raised, shut }
        synth_queue_totals: Closed { first, put, taken, left }
        synth_chain_totals: Chained { put, run }
        synth_alarm: Alarm { due, element, signal }
        synth_seat_totals: Metered { gauges, clock, alarms, alarm }
        synth_line_totals: LineTotals { sent, received, left }
        synth_place: Place { kind, number }
        synth_hand_totals: Places { place, pc, pending, stops }
        synth_raw_answer: Answer { code, head, tail }
        synth_raw_moved: Moved { code, head, notifies }
        synth_raw_state: State { code, word }
    });
    let mut wanted = header_layouts();
    // It is of the inline functions alone.
    assert!(wanted.remove("synth_element_state").is_some());
    assert_eq!(had, wanted);
}

#[test]
fn the_library_is_of_this_version() {
    let version = super::synth_version_of_crate();
    // SAFETY: the library returns a text of its own.
    assert_eq!(unsafe { CStr::from_ptr(version) }.to_str(), Ok(env!("CARGO_PKG_VERSION")));
}
