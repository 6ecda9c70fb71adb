//! The fixed scripts for R-6: records that hold a row, with a cell more or fewer at each end, in rows that wrap and in rows of
//! double width; lists of every length; records that are refused, of every kind and at every place; and records of one name that
//! differ, in every order.

use crate::board::Page;
use crate::dice::{any_mode, in_buffer, page, with_codes, Dice, Shape, MODES};
use crate::make::{Maker, Script};
use crate::records::Phrase;
use crate::script::phrases_text;
use crate::sheet::row_cells;
use crate::stage::coded_table;

/// Which page has the row that is asked for.
#[derive(Clone, Copy)]
enum Kind {
    Sheet,
    Table,
    Coded(u8),
}

/// With what a script's name says it.
const KINDS: [(&str, Kind); 6] = [
    ("sheet", Kind::Sheet),
    ("table", Kind::Table),
    ("code-00", Kind::Coded(0)),
    ("code-01", Kind::Coded(1)),
    ("code-10", Kind::Coded(2)),
    ("code-11", Kind::Coded(3)),
];

/// First and last buffer address, and the cell with which the row begins.
type Place = (u16, u16, u16);

/// Places of a row that fetches seven cells.
const PLACES: [Place; 22] = [
    // the cells follow one another
    (0, 16383, 0),
    (0, 16383, 1),
    (0, 16383, 5000),
    (0, 16383, 16377),
    (0, 1023, 1017),
    (2048, 3071, 0),
    (0, 1023, 5000),
    // past 16383, by one cell, by some, by all but one
    (0, 16383, 16378),
    (0, 16383, 16380),
    (0, 16383, 16383),
    (4095, 1023, 16380),
    (3000, 16383, 16381),
    // past the last buffer address, down, and not far down
    (0, 1023, 1018),
    (0, 1023, 1020),
    (0, 1023, 1023),
    (1000, 1023, 1020),
    // all cells of the buffer once, some twice, and one seven times
    (1017, 1023, 1019),
    (1020, 1023, 1022),
    (1023, 1023, 1023),
    // past the last buffer address, up: with one cell between that is not fetched, and with many
    (1025, 1023, 1021),
    (4095, 1023, 1020),
    (4095, 1023, 1023),
];

const PLAIN: Place = (0, 16383, 5000);
const OVER_THE_END: Place = (0, 16383, 16380);
const OVER_THE_BUFFER: Place = (0, 1023, 1020);

/// Where the row table stands: away from the cells.
const TABLE: u16 = 9000;

/// Records of a long list.
const MANY: usize = 3000;

fn named(name: impl Into<String>, write: impl Fn(&mut Script, &mut Dice) + 'static) -> Maker {
    (name.into(), Box::new(write))
}

pub fn all() -> Vec<Maker> {
    let mut all = Vec::new();
    for (name, kind) in KINDS {
        // [R-6 row]
        all.push(named(format!("index-ends-{}", name), move |script, dice| ends(script, dice, kind)));
    }
    for hact in [1, 2, 3, 80, 255, 256] {
        // [R-6 row]
        all.push(named(format!("index-of-{}", hact), move |script, dice| width(script, dice, hact)));
    }
    all.extend([
        // [R-6 lowest]
        named("index-lists", short_lists),
        named("index-none", no_list),
        named("index-stretches", stretches),
        // [R-6 lowest]
        named("index-many", many),
        // [R-6 refusals]
        named("index-refused", refused),
        // [R-6 refusals]
        named("index-just-not-refused", just_not_refused),
        named("index-any-numbers", any_numbers),
        named("index-differ-lists", differ_lists),
        // [R-6 pair]
        named("index-differ-pairs", differ_pairs),
        // [R-6 pair]
        named("index-differ-triples", differ_triples),
        named("index-differ-names", differ_names),
        named("index-differ-cells", differ_cells),
        // [R-6 pair]
        named("index-differ-many", differ_many),
    ]);
    all
}

/// Makes the page of which row 1 is of this kind, or in a sheet row 0, and gives the cells that it fetches. In some pages the
/// display is off.
fn lay_out(
    script: &mut Script,
    dice: &mut Dice,
    mode: usize,
    kind: Kind,
    hact: u32,
    place: Place,
) -> (Page, u32, Vec<u16>) {
    let (first, last, start) = place;
    let shape = Shape { hact, rows: 3, lines: dice.between(1, 4), dots: dice.between(6, 12) };
    let mut page = in_buffer(MODES[mode](page(dice, shape)), first, last, start);
    page.switches = page.switches & !1 | dice.pick(&[0, 1]);
    page.start2 = TABLE;
    let mut chars = script.chars(dice);
    let mut any = || (dice.between(0, 16383) as u16, dice.between(0, 3) as u8);
    let (row, code) = match kind {
        Kind::Sheet => (0, 0),
        Kind::Table => (1, any().1),
        Kind::Coded(code) => (1, code),
    };
    match kind {
        Kind::Sheet => (),
        Kind::Table => page.irs[2] |= 0x80,
        Kind::Coded(_) => page = with_codes(page),
    }
    coded_table(script, &page, &mut chars, &[any(), (start, code), any()]);
    script.numbers(&page);
    let cells = row_cells(&page, &chars, row);
    (page, row, cells)
}

/// How many columns a row of this kind has that fetches so many cells: one way, or two in a row of double width.
fn columns(kind: Kind, cells: u32) -> Vec<u32> {
    match kind {
        Kind::Sheet | Kind::Table | Kind::Coded(0) => vec![cells],
        Kind::Coded(_) => vec![2 * cells - 1, 2 * cells],
    }
}

/// Records over these cells, from one to another. Their names are any: they play no part in which record holds a row.
fn over(dice: &mut Dice, stretches: &[(u32, u32)]) -> Vec<Phrase> {
    stretches.iter().map(|&(from, to)| Phrase::over(dice.between(0, 2), dice.between(0, 4), from, to)).collect()
}

fn lowest(cells: &[u16]) -> i32 {
    cells.iter().copied().min().map_or(0, i32::from)
}

fn highest(cells: &[u16]) -> i32 {
    cells.iter().copied().max().map_or(0, i32::from)
}

/// Stretches about a row's cells, those of them that are in memory.
fn about(cells: &[u16]) -> Vec<(u32, u32)> {
    let (low, high) = (lowest(cells), highest(cells));
    let column = |at: usize| i32::from(cells[at]);
    let (first, last) = (column(0), column(cells.len() - 1));
    // where the first run ends
    let run = cells.windows(2).take_while(|pair| pair[1] == pair[0] + 1).count();
    let all = [
        // too few cells at one end, and at the other
        (low, high - 1),
        (low + 1, high),
        (0, high - 1),
        (low + 1, 16383),
        (low - 1, high - 1),
        (low + 1, high + 1),
        // what touches the row's cells
        (low - 5, low - 1),
        (high + 1, high + 5),
        // single columns, and all cells between the first and the last column's
        (first, first),
        (last, last),
        (first.min(last), first.max(last)),
        // the first run, and what comes after it
        (first, column(run)),
        (column((run + 1) % cells.len()), last),
        // all but one cell of memory
        (1, 16383),
        (0, 16382),
        // all cells, and more of them
        (low - 1, high),
        (low, high + 1),
        (low, high),
        (0, high),
        (low, 16383),
        (0, 16383),
    ];
    let inside = all.iter().filter(|(from, to)| 0 <= *from && from <= to && *to <= 16383);
    inside.map(|&(from, to)| (from as u32, to as u32)).collect()
}

fn ask(script: &mut Script, row: u32, list: &[Phrase]) {
    script.phrases(list);
    script.say(format!("call phrase_of_row {}", row));
}

/// Each stretch about the row alone; then all in one list, forward and backward, from which one after the other is taken away in
/// front, so that another one is the lowest that holds the row. At last two that hold the row only together.
fn ask_about(script: &mut Script, dice: &mut Dice, row: u32, cells: &[u16]) {
    let mut list = over(dice, &about(cells));
    list.iter().for_each(|&one| ask(script, row, &[one]));
    for _ in 0..2 {
        (0..list.len()).for_each(|from| ask(script, row, &list[from..]));
        script.say("call phrases_differ");
        list.reverse();
    }
    let (low, high) = (lowest(cells) as u32, highest(cells) as u32);
    if low < high {
        let middle = (low + high) / 2;
        for halves in [[(low, middle), (middle + 1, high)], [(low, high - 1), (low + 1, high)]] {
            let list = over(dice, &halves);
            ask(script, row, &list);
        }
    }
}

/// Rows of seven cells at every place.
fn ends(script: &mut Script, dice: &mut Dice, kind: Kind) {
    for (at, place) in PLACES.into_iter().enumerate() {
        for hact in columns(kind, 7) {
            let (_, row, cells) = lay_out(script, dice, at % MODES.len(), kind, hact, place);
            assert_eq!(cells.len(), 7);
            ask_about(script, dice, row, &cells);
        }
    }
}

/// Rows of this width, of every kind, at the beginning of memory, up to its end, a cell past it, and just past a buffer's.
fn width(script: &mut Script, dice: &mut Dice, hact: u32) {
    for (_, kind) in KINDS {
        let cells = match kind {
            Kind::Coded(1..) => (hact + 1) / 2,
            _ => hact,
        } as u16;
        let places = [(0, 16383, 0), (0, 16383, 16384 - cells), (0, 16383, 16385 - cells), (700, 1023, 1025 - cells)];
        for place in places.into_iter().filter(|&(_, _, start)| start < 16384) {
            let mode = any_mode(dice);
            let (_, row, fetched) = lay_out(script, dice, mode, kind, hact, place);
            assert_eq!(fetched.len(), usize::from(cells));
            ask_about(script, dice, row, &fetched);
        }
    }
}

/// Rows that the lists are about, of seven cells: they follow one another or wrap, without codes, in plain rows and in rows of
/// double width.
const ROWS: [(Kind, u32, Place); 6] = [
    (Kind::Sheet, 7, PLAIN),
    (Kind::Table, 7, OVER_THE_BUFFER),
    (Kind::Coded(3), 13, OVER_THE_END),
    (Kind::Coded(2), 14, PLAIN),
    (Kind::Coded(0), 7, PLAIN),
    (Kind::Coded(0), 7, OVER_THE_BUFFER),
];

/// Lays out one row after the other, in modes by turns.
fn every_row(script: &mut Script, dice: &mut Dice, lists: impl Fn(&mut Script, &mut Dice, &Page, u32, &[u16])) {
    for (at, (kind, hact, place)) in ROWS.into_iter().enumerate() {
        let (page, row, cells) = lay_out(script, dice, at % MODES.len(), kind, hact, place);
        lists(script, dice, &page, row, &cells);
    }
}

/// All lists of so many of these records, in every order and with every one as often as can be.
fn all_lists(records: &[Phrase], length: usize) -> Vec<Vec<Phrase>> {
    let mut lists = vec![Vec::new()];
    for _ in 0..length {
        let longer = |list: &Vec<Phrase>| records.iter().map(|&one| [&list[..], &[one]].concat()).collect::<Vec<_>>();
        lists = lists.iter().flat_map(longer).collect();
    }
    lists
}

/// In every mode every list of up to three of these records: two that hold the row, three that do not, one that is refused.
fn short_lists(script: &mut Script, dice: &mut Dice) {
    for (mode, (kind, hact, place)) in (0..MODES.len()).flat_map(|mode| ROWS.map(|row| (mode, row))) {
        let (_, row, cells) = lay_out(script, dice, mode, kind, hact, place);
        let (low, high) = (lowest(&cells) as u32, highest(&cells) as u32);
        let mut records = over(dice, &[(low, high), (0, 16383), (low, high - 1), (low + 1, high), (6000, 6100)]);
        records.push(Phrase { first: low, length: 0, ..records[0] });
        for list in (0..=3).flat_map(|length| all_lists(&records, length)) {
            ask(script, row, &list);
        }
    }
}

/// NULL, and a list of nothing, for rows of each kind and for a row that the page has not.
fn no_list(script: &mut Script, dice: &mut Dice) {
    for mode in 0..MODES.len() {
        for (_, kind) in KINDS {
            let (page, _, _) = lay_out(script, dice, mode, kind, 9, OVER_THE_BUFFER);
            for list in ["none phrases".to_string(), format!("fill phrases 0 {}", dice.seed())] {
                script.say(list);
                (0..=page.rows()).for_each(|row| script.say(format!("call phrase_of_row {}", row)));
                script.say("call phrases_differ");
            }
        }
    }
}

/// Records of one length that begin at equal distances, as far as memory goes, each with a number of its own.
fn in_steps(from: u32, step: u32, length: u32) -> Vec<Phrase> {
    let starts = (from..=16384 - length).step_by(step as usize);
    starts.map(|first| Phrase { language: 1, number: first, first, length }).collect()
}

/// A list and its records in the other order.
fn ask_both_orders(script: &mut Script, row: u32, list: &[Phrase]) {
    let backward: Vec<Phrase> = list.iter().rev().copied().collect();
    for list in [list, &backward] {
        ask(script, row, list);
        script.say("call phrases_differ");
    }
}

/// Memory cut into records that touch: where its cells follow one another, the row begins with one of them, ends with one, lies
/// within one, and in two ways across two. Then shorter ones; such that overlap, so that many hold the row; and such that are all
/// equal.
fn stretches(script: &mut Script, dice: &mut Dice) {
    every_row(script, dice, |script, _, _, row, cells| {
        let (low, high) = (lowest(cells) as u32, highest(cells) as u32);
        for from in [low, low + 7, low + 12, low + 1, low + 6] {
            ask_both_orders(script, row, &in_steps(from % 16, 16, 16));
        }
        for (step, length) in [(4, 4), (8, 16), (5, 40), (3, 8192)] {
            ask_both_orders(script, row, &in_steps(0, step, length));
        }
        for (from, to) in [(0, 16383), (low, high), (16383, 16383)] {
            ask(script, row, &[Phrase::over(3, 7, from, to); 1500]);
            script.say("call phrases_differ");
        }
    });
}

/// Many records, none of which holds the row's lowest cell, each with a number of its own.
fn elsewhere(dice: &mut Dice, count: usize, cells: &[u16]) -> Vec<Phrase> {
    let least = lowest(cells) as u32 + 1;
    let one = |number: u32| {
        let (a, b) = (dice.between(least, 16383), dice.between(least, 16383));
        Phrase::over(number % 5, number, a.min(b), a.max(b))
    };
    (0..count as u32).map(one).collect()
}

fn put(script: &mut Script, at: usize, record: Phrase) {
    script.say(format!("set phrases {} {}", at, phrases_text(&[record])));
}

/// A long list: nothing holds the row, one record does at each place, two do; and one that is refused, before and after. There is
/// a list of 10,000.
fn many(script: &mut Script, dice: &mut Dice) {
    every_row(script, dice, |script, dice, page, row, cells| {
        let count = if page.row_table_on() { MANY } else { 10_000 };
        let list = elsewhere(dice, count, cells);
        let holds = |at: usize| Phrase { first: 0, length: 16384, ..list[at] };
        let bad = |at: usize| Phrase { length: 0, ..list[at] };
        let call = |script: &mut Script| {
            script.say(format!("call phrase_of_row {}", row));
            script.say(format!("call phrase_of_row {}", page.rows()));
        };
        ask(script, row, &list);
        script.say("call phrases_differ");
        for at in [0, 1, count / 2, count - 2, count - 1] {
            for other in [at, 0, count / 3, count - 1] {
                put(script, other, holds(other));
                put(script, at, holds(at));
                call(script);
                put(script, other, bad(other));
                call(script);
                script.say("call phrases_differ");
                put(script, other, list[other]);
                put(script, at, list[at]);
            }
        }
    });
}

/// First cell and length: no length; past 16383 by one cell, by some, by much; and such that 32 bits, 16 or 14 do not hold the sum
/// or a number, and that then seem to be within memory.
const REFUSED: [(u32, u32); 34] = [
    (0, 0),
    (1, 0),
    (5000, 0),
    (16383, 0),
    (16384, 0),
    (u32::MAX, 0),
    (0, 16385),
    (1, 16384),
    (5000, 11385),
    (8192, 8193),
    (16383, 2),
    (16384, 1),
    (16380, 10),
    (16384, 16384),
    (20000, 7),
    (0, 65535),
    (0, 65536),
    (0, u32::MAX),
    (1, u32::MAX),
    (2, u32::MAX),
    (5000, u32::MAX),
    (16383, u32::MAX),
    (u32::MAX, 1),
    (u32::MAX, 2),
    (u32::MAX, 16384),
    (u32::MAX, u32::MAX),
    (u32::MAX - 15, 32),
    (1 << 31, 1 << 31),
    (1 << 31, (1 << 31) + 1),
    ((1 << 31) - 1, (1 << 31) + 2),
    (65536 + 5000, 7),
    (5000, 65536 + 7),
    (16384 + 5000, 7),
    (5000, 16384 + 7),
];

/// Each at each place of a list in which two records hold the row and two differ, and alone; then two in one list. The page has a
/// row of this number, or it has not.
fn refused(script: &mut Script, dice: &mut Dice) {
    every_row(script, dice, |script, dice, page, row, cells| {
        let (low, high) = (lowest(cells) as u32, highest(cells) as u32);
        let mut list = over(dice, &[(6000, 6010), (low, high), (7000, 7010), (0, 16383), (6000, 6011)]);
        list[4] = Phrase { length: 12, ..list[0] };
        let bad = |at: usize| Phrase { language: 9, number: 9, first: REFUSED[at].0, length: REFUSED[at].1 };
        let call = |script: &mut Script, list: &[Phrase]| {
            ask(script, row, list);
            script.say(format!("call phrase_of_row {}", page.rows()));
            script.say("call phrases_differ");
        };
        call(script, &list);
        for at in 0..REFUSED.len() {
            call(script, &[bad(at)]);
            for place in 0..=list.len() {
                let mut longer = list.clone();
                longer.insert(place, bad(at));
                call(script, &longer);
                longer.insert(dice.between(0, 6) as usize, bad(dice.between(0, REFUSED.len() as u32 - 1) as usize));
                call(script, &longer);
            }
        }
    });
}

/// Records that end with cell 16383 or have one cell, alone and all together.
fn just_not_refused(script: &mut Script, dice: &mut Dice) {
    let stretches =
        [(16383, 1), (16382, 2), (16377, 7), (16128, 256), (8192, 8192), (1, 16383), (0, 16384), (0, 1), (5000, 1)];
    let list = stretches.map(|(first, length)| Phrase { language: 1, number: first, first, length });
    for place in [(0, 16383, 16377), PLAIN, OVER_THE_END, (0, 16383, 0)] {
        for (mode, (_, kind)) in KINDS.into_iter().enumerate() {
            let (_, row, _) = lay_out(script, dice, mode % MODES.len(), kind, 7, place);
            for record in list {
                ask(script, row, &[record]);
                script.say("call phrases_differ");
            }
            ask_both_orders(script, row, &list);
        }
    }
}

/// Which bits of a record's numbers are kept: all of them; few of the name, those of a cell, and lengths below 16, 256 and 8192.
const MASKS: [&str; 4] = [
    "ffffffffffffffffffffffffffffffff",
    "000000010000000700003fff0000000f",
    "0000000300000fff00003fff000000ff",
    "000000000000000100001fff00001fff",
];

/// Records of numbers as they fall.
fn any_numbers(script: &mut Script, dice: &mut Dice) {
    for mask in MASKS {
        for count in [1, 2, 3, 10, 40, 1000] {
            let mode = any_mode(dice);
            let (kind, hact, place) = dice.pick(&ROWS);
            let (page, _, _) = lay_out(script, dice, mode, kind, hact, place);
            for _ in 0..5 {
                script.say(format!("fill phrases {} {}", count, dice.seed()));
                script.say(format!("mask phrases {}", mask));
                (0..=page.rows()).for_each(|row| script.say(format!("call phrase_of_row {}", row)));
                script.say("call phrases_differ");
            }
        }
    }
}

fn differ(script: &mut Script, list: &[Phrase]) {
    script.phrases(list);
    script.say("call phrases_differ");
}

/// Every list of up to four of these records: three of one name that differ, two of another name, of the same number, that do, one
/// of the same language, and one that is refused.
fn differ_lists(script: &mut Script, _: &mut Dice) {
    let record = |language, number, first, length| Phrase { language, number, first, length };
    let records = [
        record(1, 1, 5, 2),
        record(1, 1, 5, 3),
        record(1, 1, 6, 2),
        record(2, 1, 6, 2),
        record(2, 1, 6, 3),
        record(1, 2, 5, 3),
        record(1, 1, 5, 0),
    ];
    for list in (0..=4).flat_map(|length| all_lists(&records, length)) {
        differ(script, &list);
    }
}

/// So many records, each with a number of its own.
fn own_numbers(count: usize) -> Vec<Phrase> {
    (0..count as u32).map(|number| Phrase { language: 1, number, first: 100 + number, length: 20 }).collect()
}

/// Each two positions below this, the earlier one first.
fn pairs(count: usize) -> Vec<(usize, usize)> {
    (0..count).flat_map(|earlier| (earlier + 1..count).map(move |later| (earlier, later))).collect()
}

/// One pair at every distance, which differs in its first cell, its length, or both, and ends with the same cell. Then two pairs
/// of different names: the one that begins first may end last.
fn differ_pairs(script: &mut Script, _: &mut Dice) {
    let list = own_numbers(12);
    for (earlier, later) in pairs(list.len()) {
        let one = list[earlier];
        for other in [
            Phrase { first: one.first + 1, ..one },
            Phrase { length: one.length + 1, ..one },
            Phrase { first: one.first + 1, length: one.length - 1, ..one },
            one,
        ] {
            let mut list = list.clone();
            list[later] = other;
            differ(script, &list);
        }
    }
    for (a, b) in pairs(6) {
        for (c, d) in pairs(6).into_iter().filter(|&(c, d)| a < c && ![c, d].contains(&b)) {
            let mut list = own_numbers(6);
            list[b] = Phrase { number: a as u32, ..list[b] };
            list[d] = Phrase { number: c as u32, ..list[d] };
            differ(script, &list);
        }
    }
}

/// Three records of one name at any places, two of which may be equal.
fn differ_triples(script: &mut Script, _: &mut Dice) {
    for (a, b) in pairs(7) {
        for c in b + 1..7 {
            for firsts in [[1, 1, 1], [1, 1, 2], [1, 2, 1], [1, 2, 2], [1, 2, 3]] {
                let mut list = own_numbers(7);
                for (at, first) in [a, b, c].into_iter().zip(firsts) {
                    list[at] = Phrase { number: 99, first, ..list[at] };
                }
                differ(script, &list);
            }
        }
    }
}

/// Languages and numbers that could be taken for one another: exchanged, of the same sum, or alike in their low bits.
const NAMES: [(u32, u32); 16] = [
    (0, 0),
    (0, 1),
    (1, 0),
    (1, 1),
    (1, 2),
    (2, 1),
    (0, 256),
    (256, 0),
    (1, 255),
    (0, 65536),
    (65536, 0),
    (65536, 65536),
    (0, u32::MAX),
    (u32::MAX, 0),
    (u32::MAX, u32::MAX),
    (1 << 31, 1 << 31),
];

/// Each two names with other cells, which differ exactly if the names are the same.
fn differ_names(script: &mut Script, _: &mut Dice) {
    for (language, number) in NAMES {
        for other in NAMES {
            let one = Phrase { language, number, first: 10, length: 5 };
            differ(script, &[one, Phrase { language: other.0, number: other.1, first: 20, length: 6 }]);
        }
    }
}

/// First cells and lengths that could be taken for one another, in one name.
fn differ_cells(script: &mut Script, _: &mut Dice) {
    let cells = [
        (5, 3),
        (3, 5),
        (5, 4),
        (6, 2),
        (6, 3),
        (0, 8),
        (0, 1),
        (1, 1),
        (261, 3),
        (5, 259),
        (0, 16384),
        (1, 16383),
        (16383, 1),
        (8192, 8192),
    ];
    for (first, length) in cells {
        for other in cells {
            let one = Phrase { language: 4, number: 4, first, length };
            differ(script, &[one, Phrase { first: other.0, length: other.1, ..one }]);
        }
    }
}

/// Long lists with one pair that differs, near and far; two pairs; equal records; and one that is refused before, between and
/// behind.
fn differ_many(script: &mut Script, _: &mut Dice) {
    let last = MANY - 1;
    let list = own_numbers(MANY);
    let named = |at: usize, name: usize| Phrase { number: name as u32, ..list[at] };
    differ(script, &list);
    for (earlier, later) in [(0, last), (0, 1), (1, last), (last - 1, last), (1499, 1500), (1000, 2000), (7, 1031)] {
        put(script, later, named(later, earlier));
        script.say("call phrases_differ");
        for bad in [0, 1500, last] {
            put(script, bad, Phrase { first: 16384, ..named(bad, bad) });
            script.say("call phrases_differ");
            put(script, bad, if bad == later { named(later, earlier) } else { list[bad] });
        }
        // another pair, which for all but one of these begins later and for most ends sooner
        put(script, last - 2, named(last - 2, last - 3));
        script.say("call phrases_differ");
        put(script, last - 2, list[last - 2]);
        // a copy is no pair
        put(script, later, list[earlier]);
        script.say("call phrases_differ");
        put(script, later, list[later]);
    }
    differ(script, &vec![list[0]; MANY]);
}
