//! What the programs over item_rooms.h print: the limits that batches and reports have alike.

/// Of the day but for the last slice: what is written, and that nothing else is.
const DAY: &str = "\
answers 00 00 00 00 00 00 00 0F 00 00 00 00 12 00 00 0B 00
responses FF FF FF FF FF FF FF FF FF FF FF FF FF FF 03 FF FF FF FF FF FF FF FF FF FF FF FF FF 0F FF
";

const BAD: [&str; 13] = [
    "one byte left",
    "two bytes left",
    "a body that is not there",
    "a body cut",
    "a length of 256, cut",
    "a wait cut",
    "flag 17, cut",
    "flag 17",
    "flag 32",
    "flag 255",
    "a wait of 0",
    "a wait of 3",
    "a wait of 5",
];

/// What such a program prints of the last slice: its name, and what stands behind it.
pub struct Last {
    pub name: &'static str,
    pub day: &'static str,
    pub nothing: &'static str,
    pub longest: &'static str,
}

/// Buffers of all lengths, and the longest item.
fn rooms(Last { name, day, nothing, longest }: &Last) -> String {
    let rooms = ["just enough", "more", "what always suffices"];
    let carried =
        rooms.map(|room| format!("{room}: 0 0 0 0\n{DAY}{name}{day}\nall else stayed\n")).concat();
    let short = ["responses", "answers", name];
    let short = short.map(|slice| format!("{slice} too short: 10 0 0 0\nall stayed\n")).concat();
    format!(
        "rooms
{carried}{short}no items: 0 0 0 0
answers
responses
{name}{nothing}
all else stayed
no items, {name} too short: 10 0 0 0
all stayed
longest item
READ: 0 0 0 0
00 FF FF C3
{name}{longest}
a byte less: 10 0 0 0
all stayed
cut: 9 0 0 0
all stayed
"
    )
}

/// Slices that are empty, at an address or at none.
fn empty(Last { name, nothing, .. }: &Last, kind: &str) -> String {
    format!(
        "empty slices, {kind}
record: 8 0 0 0
array: 2 0 0 0
items: 0 0 0 0
responses: 10 0 0 0
answers: 10 0 0 0
{name}: 10 0 0 0
items, responses and answers: 0 0 0 0
{name}{nothing}
all: 8 0 0 0
"
    )
}

/// All of it.
pub fn limits(last: &Last) -> String {
    let bad = BAD.map(|name| format!("{name}: 9 0 0 0\nall stayed\n")).concat();
    let empty = ["an address", "NULL"].map(|kind| empty(last, kind)).concat();
    let (rooms, name) = (rooms(last), last.name);
    format!(
        "{rooms}bad items
{bad}{empty}lengths beyond 32 bits
record: 8 0 0 0
array: 2 0 0 0
responses: 0 0 0 0
answers: 0 0 0 0
{name}: 0 0 0 0
"
    )
}
