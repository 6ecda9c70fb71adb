//! The fixed scripts for R-5: sheets that leave just enough cells for their table, too few of them, or some in several
//! stretches; sheets in buffers of every kind; tables whose entries follow one another, at every place, and such that are a bit
//! apart; and pages of every kind and mode.

use crate::board::Page;
use crate::dice::{in_buffer, in_field_mode, page, place_cells, Dice, Shape, MODES};
use crate::files::{page_bytes, NUMBERS};
use crate::make::{Maker, Script};
use crate::script::hex;
use crate::sheet::row_cells;
use crate::stage::{attribute, cursor_in_sight, following, prepare, rows, set_up, table};
use crate::tables::lowest_stretch;

/// A name; rows and HACT; first and last buffer address and screen start 1; where the table goes.
type Room = (&'static str, (u32, u32), (u16, u16, u16), Option<usize>);

const ROOMS: [Room; 33] = [
    // one stretch, of 225 cells where 226 are needed
    // [R-5 refusals]
    ("moves-too-few-at-0", (113, 143), (0, 16383, 225), None),
    ("moves-too-few-between", (113, 143), (0, 16383, 300), None),
    ("moves-too-few-to-16383", (113, 143), (0, 16383, 0), None),
    // one stretch that is just long enough
    // [R-5 lowest]
    ("moves-enough-at-0", (128, 126), (0, 16383, 256), Some(0)),
    ("moves-enough-at-1", (128, 126), (0, 16383, 257), Some(1)),
    ("moves-enough-between", (128, 126), (0, 16383, 300), Some(44)),
    ("moves-enough-to-16382", (128, 126), (0, 16383, 16383), Some(16127)),
    ("moves-enough-to-16383", (128, 126), (0, 16383, 0), Some(16128)),
    ("moves-enough-for-64-rows", (64, 254), (0, 16383, 0), Some(16256)),
    // one stretch, a cell longer
    ("moves-one-more-at-0", (127, 127), (0, 16383, 255), Some(0)),
    ("moves-one-more-to-16383", (127, 127), (0, 16383, 0), Some(16129)),
    // long enough only where 16383 is passed
    // [R-5 lowest]
    ("moves-passing-by-1", (128, 126), (0, 16383, 1), None),
    ("moves-passing-by-half", (128, 126), (0, 16383, 128), None),
    ("moves-passing-but-for-1", (128, 126), (0, 16383, 255), None),
    // two stretches, before the buffer and before screen start 1
    // [R-5 lowest]
    ("moves-two-too-short", (128, 126), (100, 16383, 1000), None),
    ("moves-two-first-1-short", (113, 142), (225, 16383, 1000), None),
    ("moves-two-second-1-short", (113, 142), (113, 16383, 1000), None),
    ("moves-two-first-enough", (113, 142), (226, 16383, 1000), Some(0)),
    ("moves-two-second-enough", (113, 142), (112, 16383, 1000), Some(774)),
    ("moves-two-both", (100, 150), (200, 16383, 5000), Some(0)),
    ("moves-two-second-longer", (100, 150), (199, 16383, 5000), Some(3815)),
    // all cells of the buffer, round and round
    ("moves-round-1-short", (128, 128), (255, 16383, 255), None),
    ("moves-round-enough", (128, 128), (256, 16383, 256), Some(0)),
    ("moves-round-one-more", (128, 128), (257, 16383, 300), Some(0)),
    ("moves-round-to-15359", (128, 128), (10, 15359, 10), Some(15360)),
    // three stretches: before screen start 1, between the buffer's last and first address, and behind all
    ("moves-three-first-enough", (128, 60), (4095, 1023, 256), Some(0)),
    ("moves-three-second-enough", (128, 60), (1280, 1023, 255), Some(1024)),
    ("moves-three-second-longer", (128, 60), (4095, 1023, 255), Some(1024)),
    // [R-5 lowest]
    ("moves-three-third", (128, 60), (1279, 1023, 255), Some(8190)),
    ("moves-three-too-short", (128, 123), (1279, 1023, 255), None),
    // from outside the buffer, and no cell at all
    ("moves-from-outside", (128, 128), (0, 1023, 16000), Some(1024)),
    ("moves-none-left", (64, 256), (0, 16383, 0), None),
    ("moves-none-left-twice", (128, 256), (0, 16383, 5), None),
];

/// Buffers and screen start 1: A6 to A8, a buffer of one cell, starts below and above the buffer, and all of memory.
const BUFFERS: [(u16, u16, u16); 9] = [
    (0, 1023, 1000),
    (2048, 3071, 0),
    (4095, 1023, 16383),
    (4095, 1023, 1000),
    (1023, 1023, 1023),
    (0, 1023, 5000),
    (100, 16383, 16380),
    (100, 16383, 3),
    (0, 16383, 16380),
];

/// Places of a table: even and odd, and such that it passes 16383, between two entries and in the middle of each.
const PLACES: [u16; 12] = [0, 1, 5000, 5001, 16375, 16376, 16377, 16379, 16380, 16381, 16382, 16383];

fn named(name: impl Into<String>, write: impl Fn(&mut Script, &mut Dice) + 'static) -> Maker {
    (name.into(), Box::new(write))
}

pub fn all() -> Vec<Maker> {
    let mut all = Vec::new();
    for room in ROOMS {
        all.push(named(room.0, move |script, dice| leaving(script, dice, room)));
    }
    for mode in 0..MODES.len() {
        // [R-5 table] [R-5 both]
        all.push(named(format!("moves-buffers-{}", mode), move |script, dice| buffers(script, dice, mode)));
        // [R-5 back] [R-5 sheet]
        all.push(named(format!("moves-tables-{}", mode), move |script, dice| tables(script, dice, mode)));
    }
    for rows in [1, 128] {
        // [R-5 table]
        all.push(named(format!("moves-rows-{}", rows), move |script, dice| so_many_rows(script, dice, rows)));
    }
    for rows in [2, 5, 128] {
        // [R-5 back]
        all.push(named(format!("moves-apart-{}", rows), move |script, dice| apart(script, dice, rows)));
    }
    for acd in [false, true] {
        // [R-5 same]
        all.push(named(format!("moves-latch-{}", u8::from(acd)), move |script, dice| latch(script, dice, acd)));
    }
    all.extend([
        // [R-5 back]
        named("moves-any-entry", any_entry),
        // [R-5 back]
        named("moves-own-cells", own_cells),
        // [R-5 lowest]
        named("moves-cursor", cursor),
        // [R-5 same]
        named("moves-fields", fields),
        // [R-5 same]
        named("moves-off", off),
        // [R-5 refusals]
        named("moves-kinds", kinds),
    ]);
    all
}

/// The page to its other kind and back by the order, then both ways by calls: a call that comes again finds the page of its
/// kind. The numbers' unused bytes are not 0.
fn both_ways(script: &mut Script, dice: &mut Dice, page: &Page) {
    let from = 1 + page_bytes(page.version);
    let unused: Vec<u8> = (from..NUMBERS).map(|_| dice.byte() | 1).collect();
    script.say(format!("set numbers {} {}", from, hex(&unused)));
    script.moves(page);
    for call in ["to_sheet", "to_table", "to_table", "to_sheet", "to_sheet"] {
        script.say(format!("call {}", call));
    }
}

/// Both ways, with frames, runs and cells of each kind.
fn drawn_both_ways(script: &mut Script, dice: &mut Dice, page: &Page) {
    both_ways(script, dice, page);
    for call in ["to_table", "to_sheet"] {
        script.say(format!("call {}", call));
        script.say("call board_of");
        script.frame(page);
        rows(script, dice, page);
    }
}

/// A sheet and what it leaves, and the same rows as a table page, whose table stands in cells of its own rows.
fn leaving(script: &mut Script, dice: &mut Dice, (_, (rows, hact), (first, last, start1), place): Room) {
    for mode in one_of_each(dice) {
        let shape = Shape { hact, rows, lines: 1, dots: dice.between(6, 8) };
        let mut page = in_buffer(MODES[mode](page(dice, shape)), first, last, start1);
        let mut chars = script.chars(dice);
        assert_eq!(lowest_stretch(&page), place);
        cursor_in_sight(dice, &mut page, &chars);
        set_up(script, dice, &page, &chars, 2);
        both_ways(script, dice, &page);
        page.irs[2] |= 0x80;
        page.start2 = 5000;
        table(script, dice, &page, &mut chars, &following(&page));
        script.numbers(&page);
        both_ways(script, dice, &page);
    }
}

/// A mode of each kind that `moves` tells apart.
fn one_of_each(dice: &mut Dice) -> [usize; 4] {
    [0, 2, 4, 6].map(|first| first + dice.between(0, 1) as usize)
}

/// A page of this mode, large enough to wrap.
fn some_page(dice: &mut Dice, mode: usize, rows: u32) -> Page {
    let shape = Shape { hact: dice.between(3, 20), rows, lines: dice.between(1, 4), dots: dice.between(6, 12) };
    MODES[mode](page(dice, shape))
}

fn buffers(script: &mut Script, dice: &mut Dice, mode: usize) {
    for (first, last, start1) in BUFFERS {
        let mut page = in_buffer(some_page(dice, mode, 5), first, last, start1);
        let chars = script.chars(dice);
        cursor_in_sight(dice, &mut page, &chars);
        set_up(script, dice, &page, &chars, 2);
        drawn_both_ways(script, dice, &page);
    }
}

/// Where each row is one or a few cells long, and where it is the only one.
fn so_many_rows(script: &mut Script, dice: &mut Dice, rows: u32) {
    let size = 2 * rows as u16;
    for hact in [1, 2, if rows == 1 { 256 } else { 5 }] {
        for start1 in [0, 1, size - 1, size, size + 1, 16383 - size, 16384 - size, 16383] {
            for mode in one_of_each(dice) {
                let shape = Shape { hact, rows, lines: 1, dots: dice.between(6, 12) };
                let mut page = in_buffer(MODES[mode](page(dice, shape)), 0, 16383, start1);
                let chars = script.chars(dice);
                cursor_in_sight(dice, &mut page, &chars);
                set_up(script, dice, &page, &chars, 2);
                both_ways(script, dice, &page);
            }
        }
    }
}

/// Tables whose entries follow one another, with upper bits that do not count.
fn tables(script: &mut Script, dice: &mut Dice, mode: usize) {
    for start2 in PLACES {
        let mut page = some_page(dice, mode, 4);
        place_cells(dice, &mut page);
        let mut chars = script.chars(dice);
        page.irs[2] |= 0x80;
        page.start2 = start2;
        table(script, dice, &page, &mut chars, &following(&page));
        page.start1 = dice.between(0, 16383) as u16;
        cursor_in_sight(dice, &mut page, &chars);
        set_up(script, dice, &page, &chars, 2);
        drawn_both_ways(script, dice, &page);
    }
}

/// Writes one entry of the table, all sixteen bits of it.
fn entry(script: &mut Script, page: &Page, row: usize, bits: u16) {
    for (at, byte) in bits.to_le_bytes().into_iter().enumerate() {
        let cell = (usize::from(page.start2) + 2 * row + at) % 16384;
        script.say(format!("set chars {} {}", cell, hex(&[byte])));
    }
}

fn back(script: &mut Script, page: &Page) {
    script.numbers(page);
    script.say("call to_sheet");
}

/// Entries that are not where the row before ended: by one bit of the sixteen, of which two do not count, by one more or less,
/// from some row on, everywhere, and as if the buffer had no end. The table stands at an even and at an odd place, and over the
/// end of memory.
fn apart(script: &mut Script, dice: &mut Dice, rows: u32) {
    for (mode, start2) in [(0, 9000), (1, 9001), (2, 16383), (3, 16382), (4, 16381), (7, 9003)] {
        let mut page = in_buffer(some_page(dice, mode, rows), 7, 1023, 1010);
        page.irs[2] |= 0x80;
        page.start2 = start2;
        let mut chars = script.chars(dice);
        let starts = following(&page);
        table(script, dice, &page, &mut chars, &starts);
        back(script, &page);
        for row in [0, 1, rows as usize / 2, rows as usize - 1] {
            let right = starts[row];
            let bits = (0..16).map(|bit| right ^ 1 << bit);
            for wrong in bits.chain([right + 1, right.wrapping_sub(1), right | 0xC000]) {
                entry(script, &page, row, wrong);
                back(script, &page);
            }
            entry(script, &page, row, right);
            let jumps = |at: usize| starts[at] + u16::from(at >= row);
            table(script, dice, &page, &mut chars, &(0..starts.len()).map(jumps).collect::<Vec<u16>>());
            back(script, &page);
            table(script, dice, &page, &mut chars, &starts);
        }
        let on = |each: u16| (0..rows as u16).map(|row| (1010 + each * row) % 16384).collect::<Vec<u16>>();
        for starts in [on(page.hact() as u16), on(0), on(1)] {
            table(script, dice, &page, &mut chars, &starts);
            back(script, &page);
        }
    }
}

/// "whose row 0 entry is anything": where there is no other row, every entry is right.
fn any_entry(script: &mut Script, dice: &mut Dice) {
    for (mode, start2) in [(0, 16383), (1, 20), (2, 16382), (3, 77), (4, 16383), (6, 78)] {
        let mut page = some_page(dice, mode, 1);
        page.irs[2] |= 0x80;
        page.start2 = start2;
        let chars = script.chars(dice);
        set_up(script, dice, &page, &chars, 2);
        for bits in [0, 1, 16383, 0x2000, 0x4000, 0xC000, 0xFFFF, 0x1234] {
            entry(script, &page, 0, bits);
            script.numbers(&page);
            both_ways(script, dice, &page);
        }
    }
}

/// In field mode: what a cell sets runs on through the moved rows. It is set in the first cell and nowhere else, in the last of
/// each row, in any of some rows, and where a row wraps. Of the cells that no row fetches, and so of the table's, every second
/// has AFLG too.
fn latch(script: &mut Script, dice: &mut Dice, acd: bool) {
    for way in 0..4 {
        for (first, last, start1) in [(0, 1023, 1010), (4095, 1023, 1020), (0, 16383, 16370), (0, 16383, 300)] {
            let mode = dice.pick(&[2, 6]);
            let page = in_buffer(in_field_mode(some_page(dice, mode, 5), acd), first, last, start1);
            let chars = script.chars(dice);
            let cells: Vec<Vec<u16>> = (0..page.rows()).map(|row| row_cells(&page, &chars, row)).collect();
            let any = dice.between(0, page.hact() - 1) as usize;
            let set: Vec<u16> = match way {
                0 => vec![start1],
                1 => cells.iter().map(|row| row[row.len() - 1]).collect(),
                2 => vec![cells[1][any], cells[3][any]],
                _ => vec![last, 16383, 0, first],
            };
            script.attrs(dice);
            for cell in cells.concat() {
                let own = attribute(dice) & 0x7F | u8::from(set.contains(&cell)) << 7;
                script.say(format!("set attrs {} {}", cell, hex(&[own])));
            }
            prepare(script, dice, &page, 2);
            drawn_both_ways(script, dice, &page);
        }
    }
}

/// A table that stands among the cells of its rows: before the first, at the first, at the last, and behind it.
fn own_cells(script: &mut Script, dice: &mut Dice) {
    for mode in 0..MODES.len() {
        let page = in_buffer(some_page(dice, mode, 6), 0, 16383, 700);
        let cells = (page.hact() * page.rows()) as u16;
        for start2 in [700 - 11, 700, 700 + cells - 12, 700 + cells - 1] {
            let mut page = Page { start2, ..page };
            page.irs[2] |= 0x80;
            let mut chars = script.chars(dice);
            table(script, dice, &page, &mut chars, &following(&page));
            set_up(script, dice, &page, &chars, 2);
            drawn_both_ways(script, dice, &page);
        }
    }
}

/// The cursor stands before, in and behind the cells that become the table.
fn cursor(script: &mut Script, dice: &mut Dice) {
    for mode in 0..MODES.len() {
        let mut page = in_buffer(some_page(dice, mode, 3), 0, 16383, 40);
        page.switches |= 2;
        page.irs[6] = 0x0F;
        page.irs[7] &= 0xDF;
        let chars = script.chars(dice);
        set_up(script, dice, &page, &chars, 2);
        for cursor in [0, 1, 4, 5, 6, 40] {
            page.cursor = cursor;
            script.numbers(&page);
            script.say("call board_of");
            drawn_both_ways(script, dice, &page);
        }
    }
}

/// Cursor and attributes that blink, at each of their rates, in fields of every phase and at both ends of the count.
fn fields(script: &mut Script, dice: &mut Dice) {
    for (blink, cursor) in [(0, 0x20), (0, 0x30), (0x80, 0x20), (0x80, 0x30)] {
        for mode in 0..MODES.len() {
            let mut page = some_page(dice, mode, 3);
            place_cells(dice, &mut page);
            page.irs[4] = page.irs[4] & 0x7F | blink;
            page.irs[6] = 0x0F;
            page.irs[7] = page.irs[7] & 0xCF | cursor;
            page.switches |= 2;
            let chars = script.chars(dice);
            cursor_in_sight(dice, &mut page, &chars);
            set_up(script, dice, &page, &chars, 2);
            script.say("moves 000f101f20303f405f60707f80bfc0ff");
        }
    }
}

/// With the display off.
fn off(script: &mut Script, dice: &mut Dice) {
    for mode in 0..MODES.len() {
        for upper in [0, 0x80] {
            let mut page = some_page(dice, mode, 5);
            place_cells(dice, &mut page);
            page.switches &= !1;
            page.irs[2] |= upper;
            let mut chars = script.chars(dice);
            table(script, dice, &page, &mut chars, &following(&page));
            set_up(script, dice, &page, &chars, 2);
            drawn_both_ways(script, dice, &page);
        }
    }
}

/// IR0[7], IR1[7] and IR2[7] in every way, with entries that follow one another and such that do not, with room for a table and
/// without.
fn kinds(script: &mut Script, dice: &mut Dice) {
    for mode in 0..MODES.len() {
        for (rows, hact) in [(3, 5), (128, 256)] {
            let shape = Shape { hact, rows, lines: 1, dots: 8 };
            let page = Page { start2: 9001, ..in_buffer(MODES[mode](page(dice, shape)), 0, 16383, 0) };
            for (bits, apart) in (0..8).flat_map(|bits| [(bits, 0), (bits, 1)]) {
                let mut page = page;
                (0..3).for_each(|ir| page.irs[ir] = page.irs[ir] & 0x7F | (bits >> ir & 1) << 7);
                let mut starts = following(&page);
                starts[rows as usize - 1] ^= apart;
                let mut chars = script.chars(dice);
                table(script, dice, &page, &mut chars, &starts);
                for call in ["to_table", "to_sheet"] {
                    script.numbers(&page);
                    script.say(format!("call {}", call));
                }
            }
        }
    }
}
