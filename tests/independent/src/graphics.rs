//! The fixed scripts for R-7: every code on every scan line in every group, bit 5 beside every other attribute on both
//! chips, groups that differ by line in rows of double height, graphics that run on; groups of every size and number,
//! chip bytes on boards of every version, and all of it by steps from anywhere.

use crate::board::{Board, Page, Place};
use crate::dice::{any_mode, any_place, groups, in_field_mode, page, with_codes, Dice, Shape, MODES};
use crate::files::{bytes_of, page_head, CHIP_PAGE_FILE};
use crate::make::{Maker, Script};
use crate::script::hex;
use crate::sheet::row_cells;
use crate::stage::{coded_table, cursor_in_sight, lines, on_and_off, pictures, prepare, set_up, show};

const PLAIN: u8 = 0;
const WIDE: u8 = 1;
const TOP: u8 = 2;
const BOTTOM: u8 = 3;

/// AFLG and bit 5: strike or graphics.
const BIT_5: u8 = 0xA0;

/// Where the row table stands: away from the cells.
const TABLE: u16 = 9000;

/// As the sample card of 002 has them, as far as our copy prints them; then none.
const CARD: [u8; 16] = [1, 1, 1, 2, 2, 2, 3, 3, 3, 4, 4, 4, 4, 0, 0, 0];

fn named(name: impl Into<String>, write: impl Fn(&mut Script, &mut Dice) + 'static) -> Maker {
    (name.into(), Box::new(write))
}

/// The scripts that are about what a page shows.
pub fn pages() -> Vec<Maker> {
    let mut all = Vec::new();
    for mode in 0..MODES.len() {
        // [R-7 pairs] [R-7 groups] [R-7 dots]
        all.push(named(format!("shapes-{}", mode), move |script, dice| shapes(script, dice, mode, false)));
        // [R-7 pairs] [R-7 groups] [R-7 dots]
        all.push(named(format!("shapes-in-codes-{}", mode), move |script, dice| shapes(script, dice, mode, true)));
        // [R-7 bit 5] [R-7 strike]
        all.push(named(format!("bit5-beside-{}", mode), move |script, dice| beside(script, dice, mode, false)));
        // [R-7 bit 5] [R-7 strike]
        all.push(named(format!("bit5-in-codes-{}", mode), move |script, dice| beside(script, dice, mode, true)));
    }
    for lines in [1, 2, 7, 8, 15, 16] {
        // [R-7 groups]
        all.push(named(format!("groups-halves-{}", lines), move |script, dice| halves(script, dice, lines)));
    }
    for acd in [false, true] {
        // [R-7 mode]
        all.push(named(format!("graphics-run-on-{}", u8::from(acd)), move |script, dice| run_on(script, dice, acd)));
    }
    all.extend([
        // [R-7 strike] [R-7 chip]
        named("chips", chips),
        // [R-7 font]
        named("groups-or-none", groups_or_none),
    ]);
    all
}

/// The scripts that are about boards, and refusals.
pub fn boards() -> Vec<Maker> {
    let mut all = vec![
        // [R-7 chip] [R-7 version]
        named("chip-bytes", chip_bytes),
        // [R-7 chip] [R-7 version]
        named("chip-numbers", chip_numbers),
        // [R-7 refusals]
        named("groups-sizes", group_sizes),
        // [R-7 refusals]
        named("groups-above-4", above_4),
        // [R-7 refusals]
        named("groups-order", order),
        // [R-7 font]
        named("groups-read", groups_read),
        // [R-7 mode]
        named("graphics-latches", latches),
        // [R-7 mode]
        named("graphics-middle", from_the_middle),
    ];
    for resets in [0, 1, 2, 200] {
        all.push(named(format!("graphics-off-{}", resets), move |script, dice| off(script, dice, resets)));
    }
    all
}

/// A page of this mode in a buffer that holds all of memory, with rows of codes or without.
fn laid_out(dice: &mut Dice, mode: usize, shape: Shape, codes: bool) -> Page {
    let plain = MODES[mode](page(dice, shape));
    let mut page = if codes { with_codes(plain) } else { plain };
    page.irs[8] = 0;
    page.irs[9] = 0xF0;
    Page { start1: 0, start2: TABLE, ..page }
}

/// Row 0 fetches what sets attributes in field mode; the next ones every code, rows of double width in two halves.
const EVERY_CODE: [(u16, u8); 8] =
    [(0, PLAIN), (256, PLAIN), (256, TOP), (384, TOP), (256, BOTTOM), (384, BOTTOM), (256, WIDE), (384, WIDE)];

/// Every code on every scan line, all in one group after the other and without groups; then in every width, in the
/// groups of the card and without. The cursor is off, or stands on a cell.
fn shapes(script: &mut Script, dice: &mut Dice, mode: usize, codes: bool) {
    let shape = Shape { hact: 256, rows: if codes { 8 } else { 2 }, lines: 16, dots: dice.between(6, 12) };
    let mut page = laid_out(dice, mode, shape, codes);
    page.irs[3] = 0;
    page.irs[7] = page.irs[7] & 0xF0 | 15;
    let mut chars = script.chars(dice);
    let every: Vec<u8> = (0..=255).collect();
    script.say(format!("set chars 256 {}", hex(&every)));
    chars[256..512].copy_from_slice(&every);
    coded_table(script, &page, &mut chars, &EVERY_CODE);
    cursor_in_sight(dice, &mut page, &chars);
    script.say("fill attrs 16384 0");
    if page.field_mode() {
        script.say(format!("set attrs 3 {}", hex(&[BIT_5])));
    } else {
        script.say(format!("set attrs 0 {}", hex(&[BIT_5; 512])));
    }
    prepare(script, dice, &page, 2);
    for font in [&[0; 16][..], &[1; 16], &[2; 16], &[3; 16], &[4; 16], &[]] {
        script.groups(font);
        script.frame(&page);
    }
    for dots in 6..=12 {
        let page = Page { dots, ..page };
        script.numbers(&page);
        script.say("call board_of");
        for font in [&CARD[..], &[]] {
            script.groups(font);
            script.frame(&page);
        }
    }
}

/// Every attribute byte, in cells that set it and, in field mode, in those for which it runs on; underline, strike and
/// cursor on lines of the row; in fields of every phase.
fn beside(script: &mut Script, dice: &mut Dice, mode: usize, codes: bool) {
    for (line, blinks) in [(0, 0x20), (2, 0x00), (5, 0x20)] {
        let shape = Shape { hact: 128, rows: if codes { 8 } else { 4 }, lines: 6, dots: dice.between(6, 12) };
        let mut page = laid_out(dice, mode, shape, codes);
        page.irs[6] = (line << 4) + 5;
        page.irs[7] = page.irs[7] & 0xC0 | blinks | line;
        page.strike = dice.pick(&[line, 3, 4]);
        page.switches |= 2;
        let mut chars = script.chars(dice);
        let rows: Vec<(u16, u8)> = (0..8).map(|row| (64 * row, [PLAIN, WIDE, TOP, BOTTOM][row as usize % 4])).collect();
        coded_table(script, &page, &mut chars, &rows);
        script.say("fill attrs 16384 0");
        // in every second cell, so that each runs on where it can
        let every: Vec<u8> = (0..=255).flat_map(|byte| [byte, byte & 0x7F]).collect();
        script.say(format!("set attrs 0 {}", hex(&every)));
        page.cursor = 2 * u16::from(BIT_5 | dice.byte() & 0x1D) + dice.pick(&[0, 1]);
        prepare(script, dice, &page, 2);
        script.groups(&[1, 2, 3, 4, 1, 0, 2, 3, 4, 1, 2, 3, 4, 1, 2, 3]);
        for field in [0, 16, 48, 96, 240] {
            script.frame_of(&page, field);
        }
        script.groups(&[]);
        script.frame_of(&page, 0);
    }
}

/// Top and bottom halves of the same cells, with groups that differ from line to line: those of the scan line count,
/// not those of the line in the row.
fn halves(script: &mut Script, dice: &mut Dice, lines: u32) {
    for mode in 0..MODES.len() {
        let shape = Shape { hact: dice.between(5, 12), rows: 5, lines, dots: dice.between(6, 12) };
        let mut page = laid_out(dice, mode, shape, true);
        let mut chars = script.chars(dice);
        coded_table(script, &page, &mut chars, &[(0, PLAIN), (50, TOP), (50, BOTTOM), (50, WIDE), (50, PLAIN)]);
        script.say("fill attrs 16384 0");
        script.say(format!("set attrs 0 {}", hex(&[BIT_5; 64])));
        if page.field_mode() {
            script.set_only(&[(0, BIT_5)]);
        }
        cursor_in_sight(dice, &mut page, &chars);
        prepare(script, dice, &page, 2);
        let by_turns: Vec<u8> = (0..16).map(|line| line % 4 + 1).collect();
        let backward: Vec<u8> = (0..16).map(|line| (16 - line) % 5).collect();
        for font in [&by_turns[..], &backward, &CARD, &groups(dice)] {
            script.groups(font);
            script.frame(&page);
        }
        show(script, dice, &page);
    }
}

/// In field mode: a cell in the middle of row 0 sets graphics, and one in row 3, or none, ends them; with other
/// attributes beside them, in rows that wrap, and to the end of the frame.
fn run_on(script: &mut Script, dice: &mut Dice, acd: bool) {
    for (first, last, start1) in [(0, 16383, 300), (0, 1023, 1010), (4095, 1023, 16370), (7, 16383, 16375)] {
        for (begin, end) in [(BIT_5, Some(0x80)), (BIT_5 | 0x11, Some(0x98)), (BIT_5 | 0x0C, None)] {
            let shape = Shape { hact: dice.between(5, 12), rows: 5, lines: dice.between(4, 16), dots: 10 };
            let mode = dice.pick(&[2, 6, 6, 6]);
            let mut page = in_field_mode(laid_out(dice, mode, shape, false), acd);
            page.irs[8] = (first % 256) as u8;
            page.irs[9] = ((last / 1024) * 16 + first / 256) as u8;
            page.start1 = start1;
            let chars = script.chars(dice);
            let cell = |row: u32, column: usize| row_cells(&page, &chars, row)[column];
            let mut set = vec![(cell(0, 3), begin)];
            set.extend(end.map(|attribute| (cell(3, 2), attribute)));
            cursor_in_sight(dice, &mut page, &chars);
            script.attrs(dice);
            script.set_only(&set);
            prepare(script, dice, &page, 2);
            script.groups(&groups(dice));
            script.frame_of(&page, dice.between(0, 3));
            script.frame(&page);
            lines(script, dice, &page);
            pictures(script, dice, &page);
        }
    }
}

/// One page in every version that can have its switches, with each chip: on A bit 5 strikes on each line by turns, on B
/// it never does. What version 3 shows on A is what version 2 shows.
fn chips(script: &mut Script, dice: &mut Dice) {
    for upper in [0, 0x20, 0x10, 0x30] {
        let shape = Shape { hact: dice.between(8, 20), rows: 3, lines: 9, dots: dice.between(6, 12) };
        let mut page = laid_out(dice, 0, shape, false);
        let chars = script.chars(dice);
        cursor_in_sight(dice, &mut page, &chars);
        script.attrs(dice);
        script.font(dice);
        script.groups(&groups(dice));
        for (version, chip) in [(1, 0), (2, 0), (3, 0), (3, 1)] {
            let switches = page.switches & 0x0F | if version == 1 { 0 } else { upper };
            for strike in [0, 4, 8, 9, 15] {
                let page = Page { version, chip, switches, strike, ..page };
                script.numbers(&page);
                script.say("call board_of");
                script.frame(&page);
            }
        }
    }
}

/// A font with groups, with groups that are all 0, and without: NULL and nothing.
fn groups_or_none(script: &mut Script, dice: &mut Dice) {
    for mode in 0..MODES.len() {
        let shape = Shape { hact: dice.between(8, 20), rows: 3, lines: dice.between(4, 16), dots: dice.between(6, 12) };
        let mut page = laid_out(dice, mode, shape, false);
        let chars = script.chars(dice);
        cursor_in_sight(dice, &mut page, &chars);
        set_up(script, dice, &page, &chars, 2);
        script.groups(&CARD);
        script.frame(&page);
        for lent in ["fill groups 16 0", "fill groups 0 1", "none groups"] {
            script.say(lent);
            script.frame(&page);
        }
        script.groups(&groups(dice));
        show(script, dice, &page);
    }
}

/// Calls that take a board; a step is taken twice, so that what one leaves is handed over again.
const WITH_BOARD: [&str; 10] = [
    "numbers_of",
    "read 2",
    "read 9",
    "write 4 200",
    "write 1 41",
    "write 1 255",
    "set_video 12 15 1 0",
    "state_at 500",
    "step 2",
    "step 2",
];

/// Every chip byte that matters on a board of every version and power state, through every call that takes one.
fn chip_bytes(script: &mut Script, dice: &mut Dice) {
    for (version, upper) in [(0, 0), (1, 0), (2, 0x10), (3, 0), (3, 0x10), (3, 0x30), (4, 0), (255, 0)] {
        let shape = Shape { hact: dice.between(5, 9), rows: 2, lines: 9, dots: dice.between(6, 12) };
        let page = laid_out(dice, 0, shape, false);
        let page = Page { version, switches: page.switches & 0x0F | upper, ..page };
        let chars = script.chars(dice);
        set_up(script, dice, &page, &chars, 2);
        script.groups(&CARD);
        for (chip, resets) in [0, 1, 2, 3, 127, 128, 254, 255].into_iter().flat_map(|chip| [0, 1, 2].map(|r| (chip, r)))
        {
            let place = Place { line: dice.between(0, 17), clock: 2, ..any_place(dice, &page) };
            for call in WITH_BOARD {
                script.board(&Board { place, resets, ..Board::of_page(Page { chip, ..page }) });
                script.say(format!("fill numbers 32 {}", dice.seed()));
                script.say(format!("call {}", call));
                script.say("call step 3");
            }
            // a reset keeps it
            script.say("call write 1 0");
        }
    }
}

/// Bytes 24 to 31 of the numbers: of byte 25 all that matter in every version, through every call that takes numbers;
/// in versions 1 and 2 it does not count. A board of these is saved again.
fn chip_numbers(script: &mut Script, dice: &mut Dice) {
    let shape = Shape { hact: dice.between(5, 9), rows: 3, lines: 5, dots: dice.between(6, 12) };
    let page = laid_out(dice, 0, shape, false);
    let chars = script.chars(dice);
    set_up(script, dice, &page, &chars, 2);
    script.groups(&CARD);
    script.say("fill cells 256 3");
    script.phrases(&[]);
    for (version, upper) in [(0, 0), (1, 0), (2, 0x10), (3, 0), (3, 0x10), (4, 0), (255, 0)] {
        let bytes = bytes_of(&Page { version: 1, switches: page.switches & 0x0F | upper, ..page });
        for chip in [0, 1, 2, 3, 255] {
            for call in ["page_check", "page_size", "line_draw 4 9", "picture_draw 9", "row_run 1", "row_cells 1"]
                .into_iter()
                .chain(["phrase_of_row 1", "page_write", "to_sheet", "to_table", "to_sheet", "board_of", "numbers_of"])
            {
                script.say(format!("fill numbers 32 {}", dice.seed()));
                script.say(format!("set numbers 0 {}", hex(&[&[version][..], &bytes, &[chip]].concat())));
                script.say(format!("fill out {} {}", CHIP_PAGE_FILE + 2, dice.seed()));
                script.say(format!("call {}", call));
            }
            script.say("call board_of");
            script.say("call step 20");
        }
    }
}

/// From no group to one too many, and far more, in fonts that are not refused for anything else, on pages of every
/// mode.
fn group_sizes(script: &mut Script, dice: &mut Dice) {
    for mode in 0..MODES.len() {
        let shape = Shape { hact: dice.between(4, 9), rows: 2, lines: 16, dots: dice.between(6, 12) };
        let page = laid_out(dice, mode, shape, false);
        let chars = script.chars(dice);
        set_up(script, dice, &page, &chars, 2);
        for size in (0..=17).chain([31, 32, 33, 256, 65536]) {
            // these are none, these are 12 where their size is right
            for seed in [0, 1] {
                script.say(format!("fill groups {} {}", size, seed));
                every_drawing(script, dice, &page);
            }
        }
    }
}

/// The calls that take a font: a step, a line, a picture.
fn every_drawing(script: &mut Script, dice: &mut Dice, page: &Page) {
    script.board(&Board { place: any_place(dice, page), ..Board::of_page(*page) });
    script.say("call step 3");
    script.say(format!("fill out {} {}", page.picture_dots(), dice.seed()));
    script.say(format!("call line_draw {} 3", dice.between(0, page.visible_lines() - 1)));
    script.say("call picture_draw 3");
}

/// A group of 4, of 5 and of 255 at each place, also of lines that no row has, on pages of every mode, where nothing is
/// in graphics and where the display is off, too.
fn above_4(script: &mut Script, dice: &mut Dice) {
    for mode in 0..MODES.len() {
        let shape = Shape { hact: dice.between(4, 9), rows: 2, lines: dice.between(1, 8), dots: dice.between(6, 12) };
        let mut page = laid_out(dice, mode, shape, false);
        let chars = script.chars(dice);
        set_up(script, dice, &page, &chars, 2);
        for place in 0..16 {
            for group in [4, 5, 6, 255] {
                let mut groups = groups(dice);
                groups[place] = group;
                script.groups(&groups);
                every_drawing(script, dice, &page);
            }
        }
        script.say("fill attrs 16384 0");
        page.switches &= !1;
        script.numbers(&page);
        for groups in [[4; 16], [5; 16], [255; 16]] {
            script.groups(&groups);
            every_drawing(script, dice, &page);
        }
    }
}

/// Groups of a wrong size and such above 4 beside what is refused before and after them: 3 before 12 before 4 and the
/// others.
fn order(script: &mut Script, dice: &mut Dice) {
    let wrong: [fn(&mut Page); 9] = [
        |page| page.chip = 2,
        |page| page.strike = 16,
        |page| page.irs[1] |= 0x80,
        |page| page.irs[0] |= 0x80,
        |page| page.irs[2] &= !7,
        |page| page.irs[1] &= 0x80,
        |page| page.dots = 5,
        |page| page.start2 = 16384,
        |_| (),
    ];
    for mode in 0..MODES.len() {
        let shape = Shape { hact: 40, rows: 2, lines: 4, dots: 8 };
        let page = laid_out(dice, mode, shape, false);
        let chars = script.chars(dice);
        set_up(script, dice, &page, &chars, 2);
        for (groups, shifted) in [(&[5; 16][..], 9), (&[1; 15], 9), (&[5; 17], 9), (&[5; 16], 8), (&[2; 16], 9)] {
            script.groups(groups);
            script.say(format!("fill shifted {} 7", shifted));
            for spoil in wrong {
                let mut page = page;
                spoil(&mut page);
                script.numbers(&page);
                script.say("fill out 2560 0");
                for call in ["line_draw 0 0", "line_draw 99 0", "picture_draw 0"] {
                    script.say(format!("call {}", call));
                }
                script.say("fill out 2 0");
                script.say("call picture_draw 0");
                script.board(&Board { pointer: dice.pick(&[0, 15]), ..Board::of_page(page) });
                script.say("call step 1");
            }
        }
    }
}

/// Font files of both versions into groups of every size, whose bytes before are refused in drawing: a file of version
/// 1 leaves them, and they are refused only there. Then a file with a group above 4 at each place.
fn groups_read(script: &mut Script, dice: &mut Dice) {
    script.font(dice);
    for (version, length, size) in [(1, 2450_u32, 2455), (2, 2466, 2471)] {
        let head = [&[version][..], &length.to_be_bytes()].concat();
        script.say(format!("fill file {} {}", size, dice.seed()));
        script.say(format!("set file 0 {}", hex(&head)));
        if version == 2 {
            script.say(format!("set file 2455 {}", hex(&CARD)));
        }
        script.say("none groups");
        script.say("call font_read");
        for room in (0..=17).chain([32, 65536]) {
            script.say(format!("fill groups {} 9", room));
            script.say("call font_read");
        }
    }
    for place in 0..16 {
        for group in [4, 5, 255] {
            let mut groups = groups(dice);
            groups[place] = group;
            script.say(format!("set file 2455 {}", hex(&groups)));
            script.say("fill groups 16 9");
            script.say(format!("fill words 1152 {}", dice.seed()));
            script.say("call font_read");
            script.say("none groups");
            script.say("call font_read");
        }
    }
}

/// In field mode every latch byte on a board that is handed over, in the middle of a line and to the next; both chips.
fn latches(script: &mut Script, dice: &mut Dice) {
    for mode in [2, 3, 6, 7] {
        let shape = Shape { hact: dice.between(5, 12), rows: 3, lines: dice.between(3, 10), dots: dice.between(6, 12) };
        let page = laid_out(dice, mode, shape, false);
        script.chars(dice);
        script.attrs(dice);
        script.set_only(&[]);
        prepare(script, dice, &page, 2);
        script.groups(&groups(dice));
        for latch in 0..=255 {
            let line = dice.between(0, page.visible_lines() - 1);
            let place = Place { line, clock: dice.between(0, 4), latch, row_latch: latch, ..any_place(dice, &page) };
            script.board(&Board { place, ..Board::of_page(page) });
            script.say("every 1");
            script.say("call step 2");
            script.say("every 0");
            script.say(format!("call step {}", 2 * page.ht()));
        }
    }
}

/// From each column of a row to the end of the frame, by states and by boards handed over there, with rows of every
/// code.
fn from_the_middle(script: &mut Script, dice: &mut Dice) {
    for mode in 4..MODES.len() {
        let shape = Shape { hact: dice.between(5, 6), rows: 4, lines: 5, dots: dice.between(6, 12) };
        let page = laid_out(dice, mode, shape, true);
        let mut chars = script.chars(dice);
        coded_table(script, &page, &mut chars, &[(0, TOP), (0, BOTTOM), (20, WIDE), (40, PLAIN)]);
        set_up(script, dice, &page, &chars, 2);
        script.groups(&groups(dice));
        for (row, clock) in (0..page.rows()).flat_map(|row| (0..=page.hact()).map(move |clock| (row, clock))) {
            let line = row * page.lines_per_row() + dice.between(0, page.lines_per_row() - 1);
            let passed = line * page.ht() + clock;
            script.say(format!("call state_at {}", passed));
            script.say(format!("call step {}", page.frame_clocks() - passed));
            script.board(&Board { place: Place { line, clock, ..any_place(dice, &page) }, ..Board::of_page(page) });
            script.say(format!("call step {}", 2 * page.ht()));
        }
        script.say("call state_at 0");
        script.frame(&page);
    }
}

/// A display that is off, and a board that is not active, latch graphics all the same: it shows where the display comes
/// on. Then a page of any mode is written, and read as it was.
fn off(script: &mut Script, dice: &mut Dice, resets: u8) {
    for mode in 4..MODES.len() {
        let shape = Shape { hact: dice.between(5, 12), rows: 4, lines: dice.between(3, 10), dots: dice.between(6, 12) };
        let mut page = laid_out(dice, mode, shape, false);
        page.switches &= !1;
        let chars = script.chars(dice);
        set_up(script, dice, &page, &chars, 2);
        script.groups(&groups(dice));
        on_and_off(script, dice, &page, resets);
    }
    let (shape, mode) = (Shape::small(dice), any_mode(dice));
    let page = laid_out(dice, mode, shape, false);
    script.numbers(&page);
    script.say(format!("fill out {} {}", CHIP_PAGE_FILE, dice.seed()));
    script.say("call page_write");
    script.say(format!("take file out {}", page_head(&page).len() + 2 * 16384));
    script.say(format!("fill numbers 32 {}", dice.seed()));
    script.say("call page_read");
    script.say("call board_of");
}
