//! The fixed scripts for R-1: cells that set attributes in every place that matters, and boards handed over with any
//! version, switches and latches.

use crate::board::{Board, Page, Place};
use crate::dice::{any_place, in_field_mode, page, Dice, Shape};
use crate::make::{Maker, Script};
use crate::sheet::row_cells;
use crate::stage::{attribute, cursor_in_sight, on_and_off, prepare, rows, set_up, show, table};

type Writer = fn(&mut Script, &mut Dice, bool);

/// The scripts that are about what a page shows, each without and with ACD.
pub fn pages() -> Vec<Maker> {
    let writers: [(&str, Writer); 6] = [
        // [R-1 latch]
        ("latch-none", none_set),
        // [R-1 latch]
        ("latch-each-row", one_in_each_row),
        // [R-1 latch]
        ("latch-last-cell", the_last_cell),
        // [R-1 latch]
        ("latch-phrases", phrases),
        // [R-1 latch]
        ("latch-wraps", wraps),
        // [R-1 ACD]
        ("latch-modes", modes),
    ];
    let mut all: Vec<Maker> = Vec::new();
    for (name, write) in writers {
        for acd in [false, true] {
            let maker = move |script: &mut Script, dice: &mut Dice| write(script, dice, acd);
            all.push((format!("{}-{}", name, u8::from(acd)), Box::new(maker)));
        }
    }
    all
}

/// The scripts that are about boards.
pub fn boards() -> Vec<Maker> {
    let mut all: Vec<Maker> = vec![
        // [R-1 counted]
        ("latch-places".to_string(), Box::new(places)),
        // [R-1 counted]
        ("latch-bytes".to_string(), Box::new(every_byte)),
        // [R-1 lines]
        ("latch-middle".to_string(), Box::new(from_the_middle)),
        // [R-1 frame]
        ("latch-past-255".to_string(), Box::new(past_255)),
        // [R-1 version]
        ("versions".to_string(), Box::new(versions)),
    ];
    for resets in [0, 1, 2, 200] {
        let maker = move |script: &mut Script, dice: &mut Dice| off(script, dice, resets);
        // [R-1 off]
        all.push((format!("latch-off-{}", resets), Box::new(maker)));
    }
    all
}

/// In field mode, in a buffer that holds all of memory, so that no row shows another's cells by itself.
fn field_page(dice: &mut Dice, acd: bool) -> Page {
    let shape = Shape { hact: dice.between(4, 20), rows: 5, lines: dice.between(2, 10), dots: dice.between(6, 12) };
    let mut page = in_field_mode(page(dice, shape), acd);
    page.irs[8] = 0;
    page.irs[9] = 0xF0;
    page
}

/// Shows the page with these cells setting attributes and no others, then two frames one after the other.
fn show_set(script: &mut Script, dice: &mut Dice, page: &mut Page, chars: &[u8], set: &[(u16, u8)]) {
    cursor_in_sight(dice, page, chars);
    script.attrs(dice);
    script.set_only(set);
    prepare(script, dice, page, 2);
    show(script, dice, page);
    script.numbers(page);
    script.frame_of(page, dice.between(0, 3));
    script.frame(page);
}

fn none_set(script: &mut Script, dice: &mut Dice, acd: bool) {
    for row_table in [0, 0x80] {
        let mut page = field_page(dice, acd);
        page.irs[2] |= row_table;
        let chars = script.chars(dice);
        show_set(script, dice, &mut page, &chars, &[]);
    }
}

/// In column 0, in the last column, and in any.
fn one_in_each_row(script: &mut Script, dice: &mut Dice, acd: bool) {
    for way in 0..3 {
        let mut page = field_page(dice, acd);
        let chars = script.chars(dice);
        let column = |dice: &mut Dice| [0, page.hact() - 1, dice.between(0, page.hact() - 1)][way] as usize;
        let cell = |dice: &mut Dice, row: u32| row_cells(&page, &chars, row)[column(dice)];
        let set: Vec<(u16, u8)> = (0..page.rows()).map(|row| (cell(dice, row), attribute(dice))).collect();
        show_set(script, dice, &mut page, &chars, &set);
    }
}

/// The last column of the last row: what it sets is valid until the frame ends, and not in the next.
fn the_last_cell(script: &mut Script, dice: &mut Dice, acd: bool) {
    for row_table in [0, 0x80] {
        let mut page = field_page(dice, acd);
        page.irs[2] |= row_table;
        page.start2 = 9000;
        let mut chars = script.chars(dice);
        let apart: Vec<u16> = (0..page.rows()).map(|row| (100 * row) as u16).collect();
        table(script, dice, &page, &mut chars, &apart);
        page.start1 = 0;
        let last = row_cells(&page, &chars, page.rows() - 1)[page.hact() as usize - 1];
        show_set(script, dice, &mut page, &chars, &[(last, 0x19)]);
    }
}

/// Rows that name the same phrase twice. One sets attributes in its middle, one in its last column, one nowhere: this
/// one looks otherwise after each of the others.
fn phrases(script: &mut Script, dice: &mut Dice, acd: bool) {
    for (at_last, attributes) in [(0x19, 0x28), (0x01, 0x3C)] {
        let mut page = Page { start2: 5000, ..field_page(dice, acd) };
        page.irs[2] |= 0x80;
        page.irs[4] = page.irs[4] & 0x80 | 6;
        let (middle, end, plain) = (16380, 300, 700);
        let mut chars = script.chars(dice);
        table(script, dice, &page, &mut chars, &[plain, middle, plain, middle, end, plain, end]);
        let set_in_middle = row_cells(&page, &chars, 1)[page.hact() as usize / 2];
        let set_at_end = row_cells(&page, &chars, 4)[page.hact() as usize - 1];
        show_set(script, dice, &mut page, &chars, &[(set_in_middle, attributes), (set_at_end, at_last)]);
        rows(script, dice, &page);
    }
}

/// Rows that pass the last buffer address or 16383, with attributes set in the cell before, in the one after, in both; of
/// the buffers one has a single cell, so that all cells are the one that sets.
fn wraps(script: &mut Script, dice: &mut Dice, acd: bool) {
    script.chars(dice);
    for (first, last, end, after) in [
        (0, 1023, 1023, 0),
        (1023, 1023, 1023, 1023),
        (4095, 1023, 1023, 4095),
        (4095, 1023, 16383, 0),
        (7, 16383, 16383, 7),
    ] {
        for set in [&[(end, 0x11)][..], &[(after, 0x28)], &[(end, 0x01), (after, 0x30)]] {
            let mut page = field_page(dice, acd);
            page.irs[8] = (first % 256) as u8;
            page.irs[9] = ((last / 1024) * 16 + first / 256) as u8;
            page.start1 = end - dice.between(0, 2 * page.hact()) as u16;
            script.attrs(dice);
            script.set_only(set);
            prepare(script, dice, &page, 2);
            script.frame(&page);
            script.frame(&page);
        }
    }
}

/// One page in version 1, and in versions 2 and 3 in character mode and in field mode: on one chip these two alone
/// differ.
fn modes(script: &mut Script, dice: &mut Dice, acd: bool) {
    let fields = field_page(dice, acd);
    script.chars(dice);
    script.attrs(dice);
    script.font(dice);
    let plain = fields.switches & 0x0F;
    let field_mode = fields.switches & 0x30;
    let modes = [(1, 0), (2, 0), (2, 0x20), (2, field_mode), (3, 0), (3, 0x20), (3, field_mode)];
    for (version, upper) in modes {
        let page = Page { version, switches: plain | upper, ..fields };
        script.numbers(&page);
        script.say("call board_of");
        script.frame(&page);
    }
}

/// Versions and switches 4 and 5 of boards that may be handed over.
const MODES: [(u8, u8); 11] =
    [(1, 0), (2, 0), (2, 0x20), (2, 0x10), (2, 0x30), (3, 0), (3, 0x10), (3, 0x30), (0, 0), (4, 0), (255, 0)];

/// Where a line, a row, the visible lines and the frame begin and end.
fn edges(page: &Page) -> Vec<(u32, u32)> {
    let (hact, ht, lines, visible) = (page.hact(), page.ht(), page.lines_per_row(), page.visible_lines());
    let mut all = Vec::new();
    for line in [0, 1, lines - 1, lines, lines + 1, visible - 1, visible, page.vt() - 1] {
        all.extend([0, 1, hact - 1, hact, ht - 1].map(|clock| (line, clock)));
    }
    all
}

/// Latches with and without AFLG at each of these places, a few clocks from there, and what gives a board back as it was.
fn places(script: &mut Script, dice: &mut Dice) {
    let page = field_page(dice, false);
    let chars = script.chars(dice);
    set_up(script, dice, &page, &chars, 2);
    for (version, upper) in MODES {
        let page = Page { version, switches: page.switches & 0x0F | upper, ..page };
        for (line, clock) in edges(&page) {
            let latches = [0x00, 0x7F, 0x80, 0xFF];
            let place = Place {
                line,
                clock,
                latch: dice.pick(&latches),
                row_latch: dice.pick(&latches),
                ..any_place(dice, &page)
            };
            script.board(&Board { place, ..Board::of_page(page) });
            script.say("every 1");
            script.say("call step 3");
            script.say("every 0");
        }
        let place = Place { latch: 0x7F, row_latch: 0xFF, ..any_place(dice, &page) };
        script.board(&Board { place, ..Board::of_page(page) });
        for call in
            ["set_video 9 3 1 0", "write 2 5", "write 1 255", "write 9 0", "read 2", "set_video 5 0 0 0", "write 1 0"]
        {
            script.say(format!("call {}", call));
        }
    }
}

/// Every byte as a latch and as a row's latch, in the middle of a line and to its end and beyond; a board at a frame's
/// beginning, where none of them counts.
fn every_byte(script: &mut Script, dice: &mut Dice) {
    for acd in [false, true] {
        let mut page = field_page(dice, acd);
        let chars = script.chars(dice);
        cursor_in_sight(dice, &mut page, &chars);
        script.attrs(dice);
        script.set_only(&[]);
        prepare(script, dice, &page, 2);
        for byte in 0..=255 {
            let line = dice.between(0, page.visible_lines() - 1);
            let clock = dice.between(0, page.hact() - 1);
            let place = Place { line, clock, latch: byte, row_latch: dice.byte(), ..any_place(dice, &page) };
            script.board(&Board { place, ..Board::of_page(page) });
            script.say(format!("call step {}", dice.between(1, 2 * page.ht())));
        }
        for (latch, row_latch) in [(0xFF, 0xFF), (0x81, 0x00), (0x00, 0x81), (0x7F, 0x7F)] {
            let place = Place { latch, row_latch, ..Place::default() };
            script.board(&Board { place, ..Board::of_page(page) });
            script.frame(&page);
        }
    }
}

/// From the middle of each row to the end of the frame and through the next: by states, and by boards handed over.
fn from_the_middle(script: &mut Script, dice: &mut Dice) {
    for acd in [false, true] {
        let page = field_page(dice, acd);
        let chars = script.chars(dice);
        set_up(script, dice, &page, &chars, 2);
        for row in 0..page.rows() {
            let line = row * page.lines_per_row() + dice.between(0, page.lines_per_row() - 1);
            let clock = dice.between(1, page.hact());
            let passed = line * page.ht() + clock;
            script.say(format!("call state_at {}", passed));
            script.say(format!("call step {}", page.frame_clocks() - passed));
            script.frame(&page);
            script.board(&Board { place: Place { line, clock, ..any_place(dice, &page) }, ..Board::of_page(page) });
            script.say(format!("call step {}", page.frame_clocks() - passed));
            script.frame(&page);
        }
    }
}

/// Frames, states and steps where the field count goes from 255 to 0 and later.
fn past_255(script: &mut Script, dice: &mut Dice) {
    for acd in [false, true] {
        let mut page = field_page(dice, acd);
        let chars = script.chars(dice);
        cursor_in_sight(dice, &mut page, &chars);
        script.attrs(dice);
        // one that blinks and runs on, and one that does not
        let cell = |row: u32, column: usize| row_cells(&page, &chars, row)[column];
        script.set_only(&[(cell(1, 2), 0x15), (cell(3, 1), 0x08)]);
        prepare(script, dice, &page, 2);
        let frame = page.frame_clocks();
        for field in [254, 255, 256, 257, 511, 512, 1000] {
            script.say(format!("call state_at {}", field * frame + dice.between(1, frame - 1)));
            script.say(format!("call step {}", page.ht()));
            script.say(format!("call state_at {}", field * frame + frame - 2));
            script.say("call step 4");
            script.frame_of(&page, field);
        }
    }
}

/// A display that is off, and a board that is not active, latch all the same: it shows where the display comes on.
fn off(script: &mut Script, dice: &mut Dice, resets: u8) {
    for acd in [false, true] {
        let mut page = field_page(dice, acd);
        page.switches &= !1;
        let chars = script.chars(dice);
        set_up(script, dice, &page, &chars, 2);
        on_and_off(script, dice, &page, resets);
    }
}

/// Every version with every set of switches 4 to 7, in numbers and in a board.
fn versions(script: &mut Script, dice: &mut Dice) {
    let page = field_page(dice, false);
    let chars = script.chars(dice);
    set_up(script, dice, &page, &chars, 2);
    script.say(format!("fill out {} {}", page.picture_dots(), dice.seed()));
    for version in [0, 1, 2, 3, 4, 255] {
        for upper in 0..16 {
            let page = Page { version, switches: page.switches & 0x0F | upper << 4, ..page };
            script.numbers(&page);
            script.say(format!("set numbers 0 {:02x}", version));
            script.say("call page_check");
            script.say("call picture_draw 3");
            script.say("call board_of");
            script.board(&Board::of_page(page));
            for call in
                ["set_video 12 1 0 1", "write 4 200", "write 1 57", "read 4", "state_at 500", "step 9", "numbers_of"]
            {
                script.say(format!("call {}", call));
            }
        }
    }
}
