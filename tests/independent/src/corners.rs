//! The fixed scripts for 01's corners: each command byte, each width, the smallest and largest pages, its
//! cases, phrases, wraps, tables at the end of memory, fields past 255, the last clocks, rooms of every size, saved boards,
//! files, and nothing at all. Those for R-1 are in `latches`, those for R-4 in `headlines`, those for R-5 in `moves`, those
//! for R-6 in `phrases`, those for R-7 in `graphics`.

use crate::board::{Board, Page};
use crate::cases;
use crate::dice::{in_field_mode, in_version_1, page, Dice, Shape};
use crate::faults::BUFFERS;
use crate::files::{bytes_of, page_length, page_of, CHIP_PAGE_FILE, FONT_FILE, GROUPS_FONT_FILE, PAGE_FILE};
use crate::graphics;
use crate::headlines;
use crate::latches;
use crate::make::{Maker, Script};
use crate::script::hex;
use crate::stage::{cursor_in_sight, framed, lines, rows, set_up, show, states, table};

const POWERS: [u8; 4] = [0, 1, 2, 200];

fn named(name: impl Into<String>, write: impl Fn(&mut Script, &mut Dice) + 'static) -> Maker {
    (name.into(), Box::new(write))
}

pub fn all() -> Vec<Maker> {
    let mut all = Vec::new();
    for resets in POWERS {
        // 63 is a page of version 2, with field mode and ACD
        for switches in [0, 15, 63] {
            // [register addresses] [register commands] [register reset]
            let name = format!("commands-{}-{}", resets, switches);
            all.push(named(name, move |script, _| commands(script, resets, switches)));
        }
        // [register pointer] [register kept] [register addresses] [register upper] [register reads]
        all.push(named(format!("registers-{}", resets), move |script, dice| registers(script, dice, resets)));
        // [register at-once] [clock blank] [fetch hold] [dots blank]
        all.push(named(format!("off-{}", resets), move |script, dice| off(script, dice, resets)));
    }
    all.extend(pages());
    for hact in [1, 2, 7, 256] {
        // [fetch move] [fetch run] [more cells]
        all.push(named(format!("wraps-{}", hact), move |script, dice| wraps(script, dice, hact)));
    }
    all.extend([
        // [register blink] [register cursor] [clock field] [dots cursor] [dots blink]
        named("fields", fields),
        // [clock zero]
        named("last-clocks", last_clocks),
        // [dots stretch] [more picture]
        named("picture-rooms", picture_rooms),
        // [more cells]
        named("cells-rooms", cells_rooms),
        // [more numbers]
        named("saved", saved),
        // [register inactive] [register reset]
        named("resets", resets_in_a_row),
        // [file page] [file beyond]
        named("page-files", |script, dice| page_files(script, dice, in_version_1)),
        // [R-1 version]
        named("page-files-in-field-mode", |script, dice| {
            page_files(script, dice, |page| version(in_field_mode(page, false), 2, 0))
        }),
        // [R-7 version] [R-7 chip]
        named("page-files-of-chip-a", |script, dice| page_files(script, dice, |page| version(page, 3, 0))),
        // [R-7 version] [R-7 chip]
        named("page-files-of-chip-b", |script, dice| page_files(script, dice, |page| version(page, 3, 1))),
        // [file font] [R-7 font]
        named("font-files", font_files),
        // [R-2 porches] [R-2 missing] [R-2 accepted]
        named("porches", porches),
        // [demand takes] [register power]
        named("nothing", nothing),
    ]);
    all.extend(latches::boards());
    all.extend(headlines::boards());
    all.extend(graphics::boards());
    all
}

/// The scripts that are about what a page shows. At each of their frames the numbers are a page's.
pub fn pages() -> Vec<Maker> {
    let mut all = Vec::new();
    for dots in 6..=12 {
        // [demand line] [clock parts] [fetch load] [dots width] [dots step]
        all.push(named(format!("sheet-of-{}", dots), move |script, dice| width(script, dice, dots, false)));
        // [register table] [fetch start]
        all.push(named(format!("catalogue-of-{}", dots), move |script, dice| width(script, dice, dots, true)));
    }
    for (hact, rows, lines) in sizes() {
        // [register counts]
        let name = format!("size-{}-{}-{}", hact, rows, lines);
        all.push(named(name, move |script, dice| extreme(script, dice, hact, rows, lines)));
    }
    all.extend([
        // [demand frame] [clock bounds]
        named("longest-frame", longest_frame),
        // [register counts] [clock HT] [clock VT] [case A1-A10] [R-2 accepted]
        named("A1-to-A5", timing_cases),
        // [register buffer] [fetch move] [case A1-A10]
        named("A6-to-A8", address_cases),
        // [register cursor] [dots shape] [dots width] [dots attributes] [dots lines] [dots levels] [case A1-A10]
        named("A9-and-A10", dot_cases),
        // [register buffer] [fetch run] [dots cursor]
        named("phrases", phrases),
        // [fetch entry]
        named("table-at-16383", table_at_the_end),
    ]);
    all.extend(latches::pages());
    all.extend(headlines::pages());
    all.extend(graphics::pages());
    all
}

/// "HACT 1 and 256, rows 1 and 128, 1 and 16 lines"
fn sizes() -> Vec<(u32, u32, u32)> {
    let mut all = Vec::new();
    for hact in [1, 256] {
        for rows in [1, 128] {
            all.extend([1, 16].map(|lines| (hact, rows, lines)));
        }
    }
    all
}

fn some_page(dice: &mut Dice) -> Page {
    let shape = Shape::small(dice);
    page(dice, shape)
}

/// Every command byte on the same board.
fn commands(script: &mut Script, resets: u8, switches: u8) {
    let version = if switches < 16 { 1 } else { 2 };
    let page = Page { version, switches, start1: 1, cursor: 2, start2: 3, dots: 8, ..cases::page(80, 35) };
    let mut board = Board { resets, pointer: 5, ..Board::of_page(page) };
    board.place.line = 7;
    board.place.latch = 0x95;
    board.place.row_latch = 0x3C;
    board.place.row_code = 0xE6;
    script.board(&board);
    for byte in 0..=255 {
        script.say("board");
        script.say(format!("call write 1 {}", byte));
    }
}

/// Every register address, and addresses above; the pointer on its way to IR14.
fn registers(script: &mut Script, dice: &mut Dice, resets: u8) {
    let board = Board { resets, ..Board::of_page(some_page(dice)) };
    script.board(&board);
    for address in (0..=9).chain([127, 128, 254, 255]) {
        script.say(format!("call read {}", address));
        for byte in [0, 255, dice.byte()] {
            script.say("board");
            script.say(format!("call write {} {}", address, byte));
            script.say(format!("call read {}", address));
        }
    }
    for pointer in [0, 13, 14, 15, 255] {
        script.board(&Board { pointer, ..board });
        (0..17).for_each(|_| script.say(format!("call write 0 {}", dice.byte())));
    }
}

/// The display off, and a board that is not active.
fn off(script: &mut Script, dice: &mut Dice, resets: u8) {
    for display in [0, 1] {
        let mut page = some_page(dice);
        page.switches = page.switches & !1 | display;
        let chars = script.chars(dice);
        cursor_in_sight(dice, &mut page, &chars);
        set_up(script, dice, &page, &chars, resets);
        show(script, dice, &page);
    }
}

fn width(script: &mut Script, dice: &mut Dice, dots: u32, row_table: bool) {
    for lines in [dice.between(9, 16), dice.between(1, 8)] {
        let shape = Shape { hact: dice.between(4, 20), rows: 3, lines, dots };
        let mut page = page(dice, shape);
        page.irs[2] |= u8::from(row_table) << 7;
        let mut chars = script.chars(dice);
        let starts: Vec<u16> = (0..3).map(|_| dice.between(0, 16383) as u16).collect();
        if row_table {
            table(script, dice, &page, &mut chars, &starts);
        }
        cursor_in_sight(dice, &mut page, &chars);
        set_up(script, dice, &page, &chars, 2);
        show(script, dice, &page);
    }
}

fn extreme(script: &mut Script, dice: &mut Dice, hact: u32, rows: u32, lines: u32) {
    let shape = Shape { hact, rows, lines, dots: dice.between(6, 12) };
    let mut page = page(dice, shape);
    let chars = script.chars(dice);
    cursor_in_sight(dice, &mut page, &chars);
    set_up(script, dice, &page, &chars, 2);
    show(script, dice, &page);
}

/// "HT is at most 384, a frame at most 826,752 clocks." In field mode, which reaches over all of it.
fn longest_frame(script: &mut Script, dice: &mut Dice) {
    let mut page = Page { version: 2, switches: 0x13, dots: 12, start1: 16000, strike: 15, ..Page::power() };
    page.irs = [0x78, 127, 0x7F, 0xFF, 127, 255, 0x0F, 0xC0 | 15, 255, 0x0F, 0, 0, 0, 0, 0];
    assert_eq!(page.frame_clocks(), 826_752);
    let chars = script.chars(dice);
    cursor_in_sight(dice, &mut page, &chars);
    set_up(script, dice, &page, &chars, 2);
    script.frame_of(&page, 255);
    states(script, dice, &page);
}

fn timing_cases(script: &mut Script, dice: &mut Dice) {
    for (hact, ec) in [(80, 35), (80, 32), (80, 33), (81, 33)] {
        script.numbers(&cases::page(hact, ec));
        script.say("call page_check");
        script.say("call page_size");
    }
    let chars = script.chars(dice);
    set_up(script, dice, &cases::page(80, 35), &chars, 2);
    script.frame_of(&cases::page(80, 35), 48);
}

fn address_cases(script: &mut Script, dice: &mut Dice) {
    let chars = script.chars(dice);
    for (first, last, start) in [(0, 1023, 1000), (2048, 3071, 0), (4095, 1023, 16300), (4095, 1023, 1000)] {
        let mut page = cases::page_in_buffer(first, last, start);
        page.irs[0] = 0;
        page.irs[4] = 2;
        page.cursor = first;
        page.switches = 3;
        set_up(script, dice, &page, &chars, 2);
        rows(script, dice, &page);
        script.say("every 1");
        script.say(format!("call step {}", 2 * page.ht()));
        script.say("every 0");
        script.frame_of(&page, 2);
    }
}

/// 01's one cell with every width, and with every set of attributes and switches on 8 dots, in both modes.
fn dot_cases(script: &mut Script, _: &mut Dice) {
    script.say("fill chars 16384 0");
    script.say("set chars 0 81");
    script.say("fill words 1152 0");
    script.say("set words 9 0041007f");
    script.say("fill flags 128 0");
    script.say("fill unshifted 9 0");
    script.say("set unshifted 0 000102030405060708");
    script.say("fill shifted 9 0");
    script.say("fill attrs 16384 0");
    for dots in 6..=12 {
        let page = Page { dots, ..cases::example_page() };
        script.numbers(&page);
        script.say("call board_of");
        script.frame(&page);
    }
    for mode in [0x00, 0x10, 0x30] {
        let version = if mode == 0 { 1 } else { 2 };
        for switches in 0..16 {
            script.numbers(&Page { version, switches: switches | mode, ..cases::example_page() });
            script.say("call board_of");
            script.say("fill out 8 0");
            for attr in 0..=255_u8 {
                script.say(format!("set attrs 0 {}", hex(&[attr])));
                script.say(format!("call line_draw {} {}", attr % 2, attr));
            }
        }
    }
}

/// Two rows name one phrase whose cells pass the last buffer address, two one whose cells pass 16383.
fn phrases(script: &mut Script, dice: &mut Dice) {
    for _ in 0..4 {
        let shape = Shape { hact: dice.between(6, 20), rows: 5, lines: dice.between(1, 4), dots: dice.between(6, 12) };
        let mut page = page(dice, shape);
        page.irs[2] |= 0x80;
        page.irs[9] &= 0x3F;
        page.start2 = 5000;
        let over = |dice: &mut Dice, end: u16| end - dice.between(1, page.hact() - 2) as u16;
        let (at_last, at_end) = (over(dice, page.last_address()), over(dice, 16383));
        let mut chars = script.chars(dice);
        table(script, dice, &page, &mut chars, &[at_last, at_end, at_last, 7000, at_end]);
        // the cursor stands on a cell that two rows show
        page.cursor = dice.pick(&[at_last, at_end, 0, page.first_address(), 16383]);
        set_up(script, dice, &page, &chars, 2);
        show(script, dice, &page);
        script.numbers(&page);
        rows(script, dice, &page);
    }
}

/// Rows that end before, at and past the last buffer address and 16383; of the buffers one has a single cell, and one ends
/// before it begins. Row table off, and on with a row that begins at each end.
fn wraps(script: &mut Script, dice: &mut Dice, hact: u32) {
    let mut chars = script.chars(dice);
    script.attrs(dice);
    script.font(dice);
    for (first, last) in [(0, 1023), (1023, 1023), (4095, 1023), (100, 16383)] {
        for end in [last, 16383] {
            for back in [0, 1, hact - 1, hact, hact + 1] {
                let shape = Shape { hact, rows: 3, lines: 2, dots: dice.between(6, 12) };
                let mut page = page(dice, shape);
                page.irs[8] = (first % 256) as u8;
                page.irs[9] = ((last / 1024) * 16 + first / 256) as u8;
                page.start1 = (end - back) as u16;
                page.start2 = 9000;
                page.cursor = dice.pick(&[first, last, 16383, 0]) as u16;
                page.irs[2] = page.irs[2] & 0x7F | u8::from(back == 1) << 7;
                table(script, dice, &page, &mut chars, &[page.start1, last as u16, 16383]);
                framed(script, dice, &page);
            }
        }
    }
}

/// A table that passes 16383, at even and odd places; with an odd one an entry straddles it.
fn table_at_the_end(script: &mut Script, dice: &mut Dice) {
    for start2 in [16383, 16382, 16381, 16380, 16379] {
        let shape = Shape { hact: dice.between(2, 9), rows: 4, lines: 2, dots: dice.between(6, 12) };
        let mut page = page(dice, shape);
        page.irs[2] |= 0x80;
        page.start2 = start2;
        let chars = script.chars(dice);
        cursor_in_sight(dice, &mut page, &chars);
        set_up(script, dice, &page, &chars, 2);
        show(script, dice, &page);
        script.numbers(&page);
        rows(script, dice, &page);
    }
}

/// Room for nothing, for a line, for all but a dot, for all, and for more.
fn picture_rooms(script: &mut Script, dice: &mut Dice) {
    for (hact, rows, lines) in [(1, 1, 1), (5, 3, 4), (256, 1, 2), (3, 128, 1), (1, 2, 16)] {
        let shape = Shape { hact, rows, lines, dots: dice.between(6, 12) };
        let mut page = page(dice, shape);
        page.irs[2] = page.irs[2] & 0x7F | dice.pick(&[0, 0x80]);
        let chars = script.chars(dice);
        cursor_in_sight(dice, &mut page, &chars);
        set_up(script, dice, &page, &chars, 2);
        let (line, all) = (page.line_dots(), page.picture_dots());
        script.say("none out");
        script.say("call picture_draw 0");
        for room in [0, 1, line, all - line, all - 1, all, all + 1, all + line, 2 * all + 1, 1_000_000] {
            script.say(format!("fill out {} {}", room, dice.seed()));
            script.say(format!("call picture_draw {}", dice.byte()));
        }
    }
}

/// Room for nothing, for the row's own cells, for one less than any row can have, for any row, and for more.
fn cells_rooms(script: &mut Script, dice: &mut Dice) {
    for hact in [1, 2, 80, 255, 256] {
        let page = page(dice, Shape { hact, rows: 2, lines: 1, dots: 8 });
        script.chars(dice);
        script.numbers(&page);
        script.say("none cells");
        script.say("call row_cells 0");
        for room in [0, 1, hact, 128, 254, 255, 256, 257, 512, 65536, 1_000_000] {
            for row in [0, 1, 2] {
                script.say(format!("fill cells {} {}", room, dice.seed()));
                script.say(format!("call row_cells {}", row));
            }
        }
    }
}

/// A board is saved as numbers wherever it stands, and made again of them; every size of the numbers; then every page that
/// differs in one of their bytes, and boards of every version with switches that it has and has not.
fn saved(script: &mut Script, dice: &mut Dice) {
    let page = Page { irs: [0x10, 34, 0x1A, 8, 1, 79, 3, 4, 5, 6, 7, 8, 9, 10, 11], ..some_page(dice) };
    let mut board = Board { pointer: 255, ..Board::of_page(page) };
    board.place.line = u32::MAX;
    board.place.row_start = 65535;
    script.board(&board);
    script.say("none numbers");
    script.say("call numbers_of");
    for size in [0, 1, 24, 25, 26, 31, 33, 64, 65536, 32] {
        script.say(format!("fill numbers {} {}", size, dice.seed()));
        script.say("call numbers_of");
    }
    script.say("call board_of");
    script.say("call numbers_of");
    for byte in 0..bytes_of(&page).len() {
        let mut bytes = bytes_of(&page);
        bytes[byte] ^= 1;
        script.board(&Board { resets: (byte % 4) as u8, ..Board::of_page(page_of(page.version, &bytes)) });
        save(script, dice);
    }
    for version in [0, 1, 2, 3, 4, 255] {
        for upper in [0, 0x10, 0x20, 0x30, 0x40, 0x80] {
            let switches = page.switches & 0x0F | upper;
            script.board(&Board::of_page(Page { version, switches, ..page }));
            save(script, dice);
        }
    }
}

/// The board's page as numbers, and a board of these.
fn save(script: &mut Script, dice: &mut Dice) {
    script.say(format!("fill numbers 32 {}", dice.seed()));
    script.say("call numbers_of");
    script.say("call page_check");
    script.say("call board_of");
}

/// "goes from 255 to 0 at the end of a frame": by states, and by steps across the end of frame 255.
fn fields(script: &mut Script, dice: &mut Dice) {
    let mut page = page(dice, Shape { hact: 5, rows: 1, lines: 2, dots: 7 });
    page.irs[3] = 0;
    let chars = script.chars(dice);
    cursor_in_sight(dice, &mut page, &chars);
    set_up(script, dice, &page, &chars, 2);
    let frame = page.frame_clocks();
    for field in [254, 255, 256, 257, 511, 512, 1000, 65535, 65536] {
        script.say(format!("call state_at {}", field * frame + frame - 3));
        script.say("every 1");
        script.say("call step 6");
        script.say("every 0");
    }
    script.say("call state_at 0");
    script.say(format!("call step {}", 257 * frame));
    for field in 0..=256 {
        script.frame_of(&page, field);
    }
}

fn last_clocks(script: &mut Script, dice: &mut Dice) {
    for _ in 0..4 {
        let page = some_page(dice);
        let chars = script.chars(dice);
        set_up(script, dice, &page, &chars, 2);
        let frame = page.frame_clocks();
        let last_whole = u32::MAX / frame * frame;
        for n in [u32::MAX, u32::MAX - 1, 1 << 31, (1 << 31) - 1, last_whole, last_whole - 1, u32::MAX - frame] {
            script.say(format!("call state_at {}", n));
            script.say(format!("call step {}", page.ht()));
        }
        script.say(format!("call state_at {}", last_whole));
        script.frame(&page);
    }
}

/// Resets with reads, steps, other writes and refused writes between them.
fn resets_in_a_row(script: &mut Script, dice: &mut Dice) {
    let page = some_page(dice);
    script.chars(dice);
    script.attrs(dice);
    script.font(dice);
    let between =
        ["call read 2", "call step 3", "call write 1 41", "call write 2 9", "call write 8 0", "call write 1 255"];
    for middle in between {
        for first in [0, 1, 2, 200] {
            script.board(&Board { resets: first, pointer: 3, ..Board::of_page(page) });
            for call in ["call write 1 0", middle, "call write 1 0", middle, "call write 1 0", middle] {
                script.say(call);
            }
        }
    }
    script.say("call power");
    (0..3).for_each(|_| script.say("call write 1 0"));
    script.say("call set_video 12 15 1 1");
    script.say("call step 1");
}

/// Whole, cut short at every part, too long, and with wrong heads, in every version; the page's own is read last.
fn page_files(script: &mut Script, dice: &mut Dice, mode: fn(Page) -> Page) {
    let page = mode(some_page(dice));
    let length = page_length(page.version).expect("a mode's version is known");
    let whole = 5 + length as usize;
    let head = |script: &mut Script, version: u8, length: u32, size: usize| {
        let bytes = [&[version][..], &length.to_be_bytes(), &bytes_of(&page)].concat();
        script.say(format!("set file 0 {}", hex(&bytes[..bytes.len().min(size)])));
    };
    script.say("fill numbers 32 77");
    script.chars(dice);
    script.attrs(dice);
    let short = [0, 1, 2, 4, 5, 6, 28, 29, 30, 31, 16413, 16414, PAGE_FILE - 1];
    for size in short.into_iter().chain([PAGE_FILE, CHIP_PAGE_FILE, CHIP_PAGE_FILE + 1, 65536]) {
        script.say(format!("fill file {} {}", size, dice.seed()));
        script.say("call page_read");
        for version in [0, 1, 2, 3, 4, 255].iter().filter(|_| size > 0) {
            for length in [32792, 32793] {
                head(script, *version, length, size);
                script.say("call page_read");
            }
        }
    }
    script.say(format!("fill file {} {}", whole, dice.seed()));
    for length in [32791, 32792, 32793, 32794, 32797, 0, 0x0100_8018, length] {
        for version in [0, 1, 2, 3, 4, 255, page.version] {
            head(script, version, length, whole);
            script.say("call page_read");
        }
    }
    script.say("call board_of");
    script.font(dice);
    show(script, dice, &page);
    script.say(format!("fill out {} {}", PAGE_FILE + 50, dice.seed()));
    script.say("call page_write");
    script.say(format!("take file out {}", whole));
    script.say("fill chars 16384 0");
    script.say("fill attrs 16384 0");
    script.say("call page_read");
}

/// The page as another version has it, with a chip.
fn version(page: Page, version: u8, chip: u8) -> Page {
    Page { version, chip, ..page }
}

/// Both versions, cut short at every part and too long, with wrong heads and with the other's. Random groups are
/// refused, so each file is read with groups that are not, too.
fn font_files(script: &mut Script, dice: &mut Dice) {
    script.font(dice);
    script.groups(&[255; 16]);
    let short = [0, 1, 4, 5, 6, 2309, 2437, 2446, FONT_FILE - 1, FONT_FILE, FONT_FILE + 1, 2463];
    for size in short.into_iter().chain([GROUPS_FONT_FILE - 1, GROUPS_FONT_FILE, GROUPS_FONT_FILE + 1, 2487, 32797]) {
        script.say(format!("fill file {} {}", size, dice.seed()));
        script.say("call font_read");
        for head in ["0100000992", "02000009a2", "01000009a2", "0200000992"].iter().filter(|_| size >= 5) {
            script.say(format!("set file 0 {}", head));
            script.say("call font_read");
        }
    }
    for size in [GROUPS_FONT_FILE, FONT_FILE] {
        script.say(format!("fill file {} {}", size, dice.seed()));
        if size == GROUPS_FONT_FILE {
            script.say(format!("set file {} 00010203040403020101020304000401", FONT_FILE));
        }
        for head in ["0000000992", "0300000992", "0100000991", "0100000993", "0100000997", "0192000992", "0100000992"] {
            script.say(format!("set file 0 {}", head));
            script.say("call font_read");
        }
        for head in ["02000009a1", "02000009a3", "02000009a7", "0292000992", "02a20009a2", "0200000992", "02000009a2"] {
            script.say(format!("set file 0 {}", head));
            script.say("call font_read");
        }
    }
    let page = some_page(dice);
    script.chars(dice);
    script.attrs(dice);
    script.numbers(&page);
    script.say("call board_of");
    script.frame(&page);
    lines(script, dice, &page);
}

/// front porches about 0, 1 and 2 and far from them, with every code of sync and back porch; some need a HACT that no
/// register holds, and are left.
fn porches(script: &mut Script, dice: &mut Dice) {
    let mut page = some_page(dice);
    page.irs[0] &= 0x7F;
    script.say("fill numbers 32 1");
    for codes in 0..=0x7F {
        for ec in [1, 2, 31, 32, 33, 128] {
            page.irs[1] = ec - 1;
            page.irs[2] = codes;
            page.irs[5] = 0;
            let widest = page.hfp();
            let hacts = (-3..=4).map(|hfp| widest + 1 - hfp).chain([1, 2, 80, 255, 256]);
            for hact in hacts.filter(|hact| (1..=256).contains(hact)) {
                page.irs[5] = (hact - 1) as u8;
                script.say(format!("set numbers 0 {}", hex(&[&[page.version][..], &bytes_of(&page)].concat())));
                script.say("call page_check");
            }
        }
    }
}

/// NULL and 0 for everything that can be lent, with the largest numbers beside.
fn nothing(script: &mut Script, dice: &mut Dice) {
    let calls = [
        "page_check",
        "page_size",
        "page_read",
        "page_write",
        "font_read",
        "line_draw 0 0",
        "line_draw 4294967295 255",
        "picture_draw 0",
        "picture_draw 255",
        "row_run 0",
        "row_run 4294967295",
        "row_cells 0",
        "row_cells 4294967295",
        "phrase_of_row 0",
        "phrase_of_row 4294967295",
        "phrases_differ",
        "to_table",
        "to_sheet",
        "board_of",
        "numbers_of",
        "state_at 0",
        "state_at 4294967295",
        "step 1",
    ];
    calls.iter().for_each(|call| script.say(format!("call {}", call)));
    BUFFERS.iter().for_each(|buffer| script.say(format!("fill {} 0 1", buffer)));
    calls.iter().for_each(|call| script.say(format!("call {}", call)));
    script.numbers(&some_page(dice));
    script.board(&Board::of_page(some_page(dice)));
    for call in calls {
        script.say("board");
        script.say(format!("call {}", call));
    }
}
