//! The fixed scripts for R-4: rows of every code in every width and shape, and boards handed over anywhere in them, in the
//! middle of a cell too, with any byte as their row's code.

use crate::board::{Board, Page, Place, MEMORY};
use crate::dice::{any_mode, any_place, in_field_mode, page, with_codes, Dice, Shape, MODES};
use crate::files::page_head;
use crate::make::{Maker, Script};
use crate::script::hex;
use crate::sheet::row_cells;
use crate::stage::{attribute, coded_table, cursor_in_sight, framed, on_and_off, prepare, rows, set_up, show};

const PLAIN: u8 = 0;
const WIDE: u8 = 1;
const TOP: u8 = 2;
const BOTTOM: u8 = 3;

/// Each code after each other one.
const EVERY_CODE: [u8; 13] = [PLAIN, WIDE, TOP, BOTTOM, WIDE, PLAIN, TOP, WIDE, BOTTOM, TOP, PLAIN, BOTTOM, PLAIN];

/// Where the row table stands: away from the cells.
const TABLE: u16 = 9000;

fn named(name: impl Into<String>, write: impl Fn(&mut Script, &mut Dice) + 'static) -> Maker {
    (name.into(), Box::new(write))
}

/// The scripts that are about what a page shows.
pub fn pages() -> Vec<Maker> {
    let mut all = Vec::new();
    for dots in 6..=12 {
        // [R-4 width]
        all.push(named(format!("codes-of-{}", dots), move |script, dice| width(script, dice, dots)));
    }
    for hact in [1, 2, 3, 4, 255, 256] {
        // [R-4 width]
        all.push(named(format!("codes-columns-{}", hact), move |script, dice| columns(script, dice, hact)));
    }
    for lines in [1, 2, 3, 5, 8, 9, 15, 16] {
        // [R-4 halves]
        all.push(named(format!("codes-lines-{}", lines), move |script, dice| scan_lines(script, dice, lines)));
    }
    for hact in [1, 2, 7, 8] {
        // [R-4 run]
        all.push(named(format!("codes-wraps-{}", hact), move |script, dice| wraps(script, dice, hact)));
    }
    all.extend([
        // [R-4 halves]
        named("headline", headline),
        // [R-4 halves]
        named("codes-cursor", cursors),
        // [R-4 latch]
        named("codes-latch", latches),
        // [R-4 code]
        named("codes-or-none", codes_or_none),
        // [R-4 code]
        named("codes-at-16383", table_at_the_end),
    ]);
    all
}

/// The scripts that are about boards.
pub fn boards() -> Vec<Maker> {
    let mut all = vec![
        // [R-4 code]
        named("codes-places", places),
        // [R-4 counted]
        named("codes-bytes", every_byte),
        // [R-4 step]
        named("codes-middle", from_the_middle),
        // [R-4 counted]
        named("codes-refused", refused),
        named("codes-written", written),
        named("codes-saved", saved),
        named("codes-longest-rows", longest_rows),
    ];
    for resets in [0, 1, 2, 200] {
        all.push(named(format!("codes-off-{}", resets), move |script, dice| off(script, dice, resets)));
    }
    all
}

/// A page whose rows have codes, in a buffer that holds all of memory.
fn coded(dice: &mut Dice, mode: usize, shape: Shape) -> Page {
    let mut page = MODES[mode](with_codes(page(dice, shape)));
    page.irs[8] = 0;
    page.irs[9] = 0xF0;
    page.start2 = TABLE;
    page
}

/// Thirteen rows, with odd and even HACT by turns of the mode.
fn thirteen(dice: &mut Dice, mode: usize, dots: u32) -> Page {
    let hact = 2 * dice.between(2, 8) + mode as u32 % 2;
    let shape = Shape { hact, rows: 13, lines: dice.between(1, 12), dots };
    coded(dice, mode, shape)
}

/// Rows of these codes that begin anywhere below the table.
fn anywhere(dice: &mut Dice, codes: &[u8]) -> Vec<(u16, u8)> {
    codes.iter().map(|&code| (dice.between(0, 8000) as u16, code)).collect()
}

/// Every code in rows of this page, drawn, with the cursor in one of them; then each row's run and cells.
fn every_code(script: &mut Script, dice: &mut Dice, mut page: Page) {
    let mut chars = script.chars(dice);
    let rows_of = anywhere(dice, &EVERY_CODE);
    coded_table(script, &page, &mut chars, &rows_of);
    cursor_in_sight(dice, &mut page, &chars);
    set_up(script, dice, &page, &chars, 2);
    show(script, dice, &page);
    script.numbers(&page);
    rows(script, dice, &page);
}

fn width(script: &mut Script, dice: &mut Dice, dots: u32) {
    for mode in 0..MODES.len() {
        let page = thirteen(dice, mode, dots);
        every_code(script, dice, page);
    }
}

fn columns(script: &mut Script, dice: &mut Dice, hact: u32) {
    for mode in 0..MODES.len() {
        let shape = Shape { hact, rows: 13, lines: dice.between(1, 3), dots: dice.between(6, 12) };
        let page = coded(dice, mode, shape);
        every_code(script, dice, page);
    }
}

/// With underline, strike and cursor on lines of the row, so that halves show them on other lines.
fn scan_lines(script: &mut Script, dice: &mut Dice, lines: u32) {
    for mode in 0..MODES.len() {
        for line in [0, lines / 2, lines - 1] {
            let shape = Shape { hact: dice.between(3, 9), rows: 13, lines, dots: dice.between(6, 12) };
            let mut page = coded(dice, mode, shape);
            page.irs[6] = (line * 16 + dice.pick(&[line, lines - 1])) as u8;
            page.irs[7] = line as u8;
            page.strike = dice.between(0, lines - 1) as u8;
            page.switches |= 2;
            every_code(script, dice, page);
        }
    }
}

/// Rows of each code whose cells end before, at and past the last buffer address and 16383.
fn wraps(script: &mut Script, dice: &mut Dice, hact: u32) {
    let mut chars = script.chars(dice);
    script.attrs(dice);
    script.font(dice);
    let cells = (hact + 1) / 2;
    for (first, last) in [(0, 1023), (1023, 1023), (4095, 1023), (100, 16383)] {
        for end in [last, 16383] {
            for back in [0, 1, cells.max(2) - 2, cells - 1, cells, cells + 1] {
                let shape = Shape { hact, rows: 8, lines: 2, dots: dice.between(6, 12) };
                let mode = any_mode(dice);
                let mut page = coded(dice, mode, shape);
                page.irs[8] = (first % 256) as u8;
                page.irs[9] = ((last / 1024) * 16 + first / 256) as u8;
                page.cursor = dice.pick(&[first, last, 16383, 0]) as u16;
                let codes = [WIDE, PLAIN, TOP, BOTTOM, WIDE, PLAIN, TOP, BOTTOM];
                let start = |row: usize| if row < 4 { end - back } else { end };
                let table: Vec<(u16, u8)> = (0..8).map(|row| (start(row) as u16, codes[row])).collect();
                coded_table(script, &page, &mut chars, &table);
                framed(script, dice, &page);
            }
        }
    }
}

/// Top and bottom halves of the same cells, over and under plain text that begins with these cells too.
fn headline(script: &mut Script, dice: &mut Dice) {
    for mode in 0..MODES.len() {
        for lines in [8, 9, 14] {
            let shape = Shape { hact: dice.between(10, 20), rows: 5, lines, dots: dice.between(6, 12) };
            let mut page = coded(dice, mode, shape);
            let mut chars = script.chars(dice);
            let above = page.hact() as u16;
            coded_table(script, &page, &mut chars, &[(0, PLAIN), (50, TOP), (50, BOTTOM), (50, PLAIN), (above, WIDE)]);
            page.cursor = 50 + dice.between(0, 4) as u16;
            set_up(script, dice, &page, &chars, 2);
            show(script, dice, &page);
        }
    }
}

/// All rows show the same cells, and the cursor stands on the first, the last and one between: on all lines, on one, and on none.
fn cursors(script: &mut Script, dice: &mut Dice) {
    for mode in 0..MODES.len() {
        for (first, last) in [(0, 15), (0, 0), (1, 1), (4, 4), (2, 5), (7, 8), (8, 8), (5, 3)] {
            let shape = Shape { hact: dice.between(5, 8), rows: 4, lines: 9, dots: dice.between(6, 12) };
            let mut page = coded(dice, mode, shape);
            page.irs[6] = first << 4 | last;
            page.irs[7] = page.irs[7] & 0xDF | dice.pick(&[0, 0x20]);
            page.switches |= 2;
            let mut chars = script.chars(dice);
            coded_table(script, &page, &mut chars, &[PLAIN, WIDE, TOP, BOTTOM].map(|code| (700, code)));
            page.cursor = 700 + dice.between(0, (page.hact() + 1) / 2) as u16;
            set_up(script, dice, &page, &chars, 2);
            script.frame_of(&page, dice.between(0, 70));
        }
    }
}

/// In field mode cells that set attributes: the first of each row, its last, which with an odd HACT has one column, and any; and
/// two of them side by side.
fn latches(script: &mut Script, dice: &mut Dice) {
    for (way, acd) in [0, 1, 2, 3].into_iter().flat_map(|way| [(way, false), (way, true)]) {
        for odd in [0, 1] {
            let shape = Shape {
                hact: 2 * dice.between(2, 6) + odd,
                rows: 13,
                lines: dice.between(2, 6),
                dots: dice.between(6, 12),
            };
            let mode = dice.pick(&[2, 6]);
            let mut page = in_field_mode(coded(dice, mode, shape), acd);
            let mut chars = script.chars(dice);
            let apart: Vec<(u16, u8)> = (0..13).map(|row| (100 * row as u16, EVERY_CODE[row])).collect();
            coded_table(script, &page, &mut chars, &apart);
            let mut set = Vec::new();
            for row in 0..page.rows() {
                let cells = row_cells(&page, &chars, row);
                let any = dice.between(0, cells.len() as u32 - 2) as usize;
                set.push((cells[[0, cells.len() - 1, any, any][way]], attribute(dice)));
                if way == 3 {
                    set.push((cells[any + 1], attribute(dice)));
                }
            }
            cursor_in_sight(dice, &mut page, &chars);
            script.attrs(dice);
            script.set_only(&set);
            prepare(script, dice, &page, 2);
            show(script, dice, &page);
        }
    }
}

/// One page and its memory without IR0[7], where the upper bits do not count, and with it.
fn codes_or_none(script: &mut Script, dice: &mut Dice) {
    for mode in 0..MODES.len() {
        let page = thirteen(dice, mode, 8);
        let mut chars = script.chars(dice);
        let table = anywhere(dice, &EVERY_CODE);
        coded_table(script, &page, &mut chars, &table);
        script.attrs(dice);
        script.font(dice);
        for upper in [0, 0x80] {
            let mut page = page;
            page.irs[0] = page.irs[0] & 0x7F | upper;
            framed(script, dice, &page);
        }
    }
}

/// Tables that pass 16383: an entry's code stands in cell 0 where it straddles.
fn table_at_the_end(script: &mut Script, dice: &mut Dice) {
    for start2 in [16383, 16382, 16381, 16380, 16379] {
        let shape = Shape { hact: dice.between(2, 9), rows: 4, lines: 2, dots: dice.between(6, 12) };
        let mode = any_mode(dice);
        let page = Page { start2, ..coded(dice, mode, shape) };
        let mut chars = script.chars(dice);
        coded_table(script, &page, &mut chars, &[(300, TOP), (300, BOTTOM), (500, WIDE), (40, PLAIN)]);
        set_up(script, dice, &page, &chars, 2);
        show(script, dice, &page);
        script.numbers(&page);
        rows(script, dice, &page);
    }
}

/// Code bytes that count as each code, low and high ones.
const BYTES: [u8; 10] = [0, 1, 2, 3, 4, 5, 6, 7, 0xFC, 0xFF];

/// Where a line begins and ends, and the columns about a cell's two.
fn edges(page: &Page) -> Vec<(u32, u32)> {
    let (hact, ht, lines, visible) = (page.hact(), page.ht(), page.lines_per_row(), page.visible_lines());
    let mut all = Vec::new();
    for line in [0, 1, lines, lines + 1, visible - 1, visible, page.vt() - 1] {
        all.extend([0, 1, 2, 3, hact - 2, hact - 1, hact, ht - 1].map(|clock| (line, clock)));
    }
    all
}

/// Each of these bytes at each of these places, with the cell there setting attributes or not, and three clocks from there:
/// with codes and without.
fn places(script: &mut Script, dice: &mut Dice) {
    for hact in [6, 9] {
        for mode in 0..MODES.len() {
            let shape = Shape { hact, rows: 3, lines: dice.between(2, 5), dots: dice.between(6, 12) };
            let page = coded(dice, mode, shape);
            let chars = script.chars(dice);
            set_up(script, dice, &page, &chars, 2);
            for upper in [0, 0x80] {
                let mut page = page;
                page.irs[0] = page.irs[0] & 0x7F | upper;
                for (line, clock) in edges(&page) {
                    for row_code in BYTES {
                        let place = Place { line, clock, row_code, ..any_place(dice, &page) };
                        script.board(&Board { place, ..Board::of_page(page) });
                        script.say(format!("call step {}", dice.pick(&[1, 2, 3])));
                    }
                }
            }
        }
    }
}

/// Every byte as a row's code, in the middle of a line and to its end and beyond; and at a frame's beginning, where none counts.
fn every_byte(script: &mut Script, dice: &mut Dice) {
    for (mode, dots) in [(0, 11), (2, 8), (5, 10), (7, 12)] {
        let page = thirteen(dice, mode, dots);
        let mut chars = script.chars(dice);
        let table = anywhere(dice, &EVERY_CODE);
        coded_table(script, &page, &mut chars, &table);
        set_up(script, dice, &page, &chars, 2);
        for row_code in 0..=255 {
            let line = dice.between(0, page.visible_lines() - 1);
            let clock = dice.between(0, page.hact() - 1);
            let place = Place { line, clock, row_code, ..any_place(dice, &page) };
            script.board(&Board { place, ..Board::of_page(page) });
            script.say("every 1");
            script.say("call step 2");
            script.say("every 0");
            script.say(format!("call step {}", dice.between(1, 2 * page.ht())));
        }
        for row_code in BYTES {
            script.board(&Board { place: Place { row_code, ..Place::default() }, ..Board::of_page(page) });
            script.frame(&page);
        }
    }
}

/// From each column of a row of each code to the end of the frame: by states, and by boards handed over there.
fn from_the_middle(script: &mut Script, dice: &mut Dice) {
    for mode in 0..MODES.len() {
        let shape = Shape { hact: dice.between(5, 6), rows: 4, lines: 3, dots: dice.between(6, 12) };
        let page = coded(dice, mode, shape);
        let mut chars = script.chars(dice);
        let table = anywhere(dice, &[TOP, WIDE, BOTTOM, PLAIN]);
        coded_table(script, &page, &mut chars, &table);
        set_up(script, dice, &page, &chars, 2);
        for row in 0..page.rows() {
            for clock in 0..=page.hact() {
                let line = row * page.lines_per_row() + dice.between(0, page.lines_per_row() - 1);
                let passed = line * page.ht() + clock;
                script.say(format!("call state_at {}", passed));
                script.say("every 1");
                script.say("call step 2");
                script.say("every 0");
                script.say(format!("call step {}", page.frame_clocks() - passed - 2));
                let place = Place { line, clock, ..any_place(dice, &page) };
                script.board(&Board { place, ..Board::of_page(page) });
                script.say(format!("call step {}", page.frame_clocks() - passed));
            }
            script.frame(&page);
        }
    }
}

/// IR0[7], IR1[7] and IR2[7] in every way: every call about a page, and what register calls and `set_video` do without judging it.
fn refused(script: &mut Script, dice: &mut Dice) {
    let shape = Shape { hact: 5, rows: 2, lines: 3, dots: 9 };
    for mode in 0..MODES.len() {
        let page = coded(dice, mode, shape);
        let chars = script.chars(dice);
        set_up(script, dice, &page, &chars, 2);
        script.say(format!("fill cells 256 {}", dice.seed()));
        script.say(format!("fill file {} 5", page_head(&page).len() + 2 * MEMORY));
        for bits in 0..8 {
            let mut page = page;
            (0..3).for_each(|ir| page.irs[ir] = page.irs[ir] & 0x7F | (bits >> ir & 1) << 7);
            script.numbers(&page);
            script.say(format!("fill out {} {}", 32800, dice.seed()));
            for call in ["page_check", "page_size", "line_draw 4 9", "picture_draw 9", "row_run 1", "row_cells 1"] {
                script.say(format!("call {}", call));
            }
            script.say("call page_write");
            script.say(format!("set file 0 {}", hex(&page_head(&page))));
            script.say("call page_read");
            script.say("call board_of");
            script.board(&Board::of_page(page));
            for call in ["numbers_of", "state_at 7", "step 9", "read 2", "write 2 1", "set_video 7 1 0 0", "step 2"] {
                script.say(format!("call {}", call));
            }
            // refused or not, memory is as before
            script.say(format!("fill chars 16384 {}", dice.seed()));
        }
    }
}

/// IR0 is written in the middle of rows and cells: their codes go, and come back with the next row.
fn written(script: &mut Script, dice: &mut Dice) {
    for mode in 0..MODES.len() {
        let page = thirteen(dice, mode, 6 + mode as u32 % 7);
        let mut chars = script.chars(dice);
        let table = anywhere(dice, &EVERY_CODE);
        coded_table(script, &page, &mut chars, &table);
        set_up(script, dice, &page, &chars, 2);
        for turn in 0..30 {
            script.say(format!("call step {}", dice.between(1, 3 * page.ht())));
            script.say("call write 1 16");
            script.say(format!("call write 0 {}", page.irs[0] ^ (turn % 2 == 0) as u8 * 0x80));
            script.say("every 1");
            script.say("call step 3");
            script.say("every 0");
        }
        script.say("call write 1 0");
        script.say("call write 1 41");
        script.frame(&page);
    }
}

/// A board in the middle of a cell is set, written, read and saved: none of it touches the code but a master reset.
fn saved(script: &mut Script, dice: &mut Dice) {
    for (mode, row_code) in [(0, 3), (2, 0x42), (3, 0xFF), (1, 4), (4, 2), (7, 0x81)] {
        let page = thirteen(dice, mode, 10);
        let chars = script.chars(dice);
        set_up(script, dice, &page, &chars, 2);
        for resets in [0, 1, 2] {
            let place = Place { line: 1, clock: 3, row_code, ..any_place(dice, &page) };
            script.board(&Board { place, resets, ..Board::of_page(page) });
            script.say(format!("fill numbers 32 {}", dice.seed()));
            for call in ["numbers_of", "set_video 9 3 1 0", "read 2", "write 2 5", "write 1 255", "set_video 5 0 0 0"] {
                script.say(format!("call {}", call));
            }
            script.say("call write 1 0");
            script.say("call step 1");
        }
        script.say("call board_of");
        script.frame(&page);
    }
}

/// As long as a row can be, with as many lines, and states far away.
fn longest_rows(script: &mut Script, dice: &mut Dice) {
    for mode in [1, 2, 6] {
        let shape = Shape { hact: 256, rows: 13, lines: 16, dots: 12 };
        let mut page = coded(dice, mode, shape);
        let mut chars = script.chars(dice);
        let table = anywhere(dice, &EVERY_CODE);
        coded_table(script, &page, &mut chars, &table);
        cursor_in_sight(dice, &mut page, &chars);
        set_up(script, dice, &page, &chars, 2);
        script.frame_of(&page, 255);
        let frame = page.frame_clocks();
        for n in [u32::MAX, 256 * frame - 1, 256 * frame + 1, 3 * frame + 17 * page.ht() + 7] {
            script.say(format!("call state_at {}", n));
            script.say(format!("call step {}", page.ht()));
        }
    }
}

/// A display that is off, and a board that is not active, fetch and latch all the same: it shows where the display comes on.
fn off(script: &mut Script, dice: &mut Dice, resets: u8) {
    for mode in 0..MODES.len() {
        let mut page = thirteen(dice, mode, 6 + mode as u32 % 7);
        page.switches &= !1;
        let mut chars = script.chars(dice);
        let table = anywhere(dice, &EVERY_CODE);
        coded_table(script, &page, &mut chars, &table);
        set_up(script, dice, &page, &chars, 2);
        on_and_off(script, dice, &page, resets);
    }
}
