//! 01 "Numbers on both sides": cases A1 to A10, A2 as R-2 has it, and the listing, in both ways of this program; pages
//! for, drawn by hand; row tables for R-5 and phrases for R-6, worked out by hand.

use crate::board::{Board, Font, Lent, Page};
use crate::dice::in_buffer;
use crate::files::{self, numbers_of, page_of_numbers};
use crate::judge::Refusal;
use crate::listing::listing;
use crate::records::Phrase;
use crate::{calls, machine, sheet};

/// "HSYNC 8, HBP 7"; 24 rows of 10, VFP 4, VSYNC 3, VBP 20 as in A5.
pub fn page(hact: u32, ec: u32) -> Page {
    let mut page = Page { switches: 1, dots: 8, ..Page::power() };
    page.irs[0] = 9 << 3;
    page.irs[1] = (ec - 1) as u8;
    page.irs[2] = 3 << 3 | 2;
    page.irs[3] = 8;
    page.irs[4] = 23;
    page.irs[5] = (hact - 1) as u8;
    page
}

/// A1's page with a display buffer and screen start 1.
pub fn page_in_buffer(first: u16, last: u16, start1: u16) -> Page {
    in_buffer(page(80, 35), first, last, start1)
}

/// "One row of one cell, two lines, HSYNC 2, HBP 3, EC 1, 8 dots, display on"
pub fn example_page() -> Page {
    let mut page = Page { switches: 1, dots: 8, ..Page::power() };
    page.irs[0] = 1 << 3;
    page.irs[2] = 1;
    page
}

pub struct OneCell {
    pub chars: Vec<u8>,
    pub attrs: Vec<u8>,
    pub words: Vec<u16>,
    pub groups: Vec<u8>,
}

const ZERO_FLAGS: [u8; 128] = [0; 128];
const LINES_0_TO_8: [u8; 9] = [0, 1, 2, 3, 4, 5, 6, 7, 8];
const ZERO_LIST: [u8; 9] = [0; 9];

impl OneCell {
    /// "code 81 hex in cell 0, [..] flags 0, unshifted list 0 to 8, font words of 01 starting 041, 07F hex"
    pub fn new(attr: u8) -> OneCell {
        let (chars, attrs) = (vec![0; 16384], vec![0; 16384]);
        let mut cell = OneCell { chars, attrs, words: vec![0; 1152], groups: Vec::new() };
        cell.chars[0] = 0x81;
        cell.attrs[0] = attr;
        cell.words[9] = 0x041;
        cell.words[10] = 0x07F;
        cell
    }

    pub fn lent(&self) -> Lent<'_> {
        let (flags, groups) = (&ZERO_FLAGS, &self.groups);
        let font = Font { words: &self.words, flags, unshifted: &LINES_0_TO_8, shifted: &ZERO_LIST, groups };
        Lent { chars: &self.chars, attrs: &self.attrs, font }
    }

    pub fn listing_input(&self, page: &Page) -> Vec<u8> {
        [files::page_file(page, &self.chars, &self.attrs), files::font_file(&self.lent().font)].concat()
    }
}

/// The first line's dots of a page whose first cell is lit, in both ways; `None` where they differ.
fn first_line(page: &Page, attr: u8) -> Option<String> {
    let cell = OneCell::new(attr);
    let drawn = sheet::line(page, &cell.lent(), 0, 0);
    let mut board = Board::of_page(*page);
    let mut stepped = Vec::new();
    for _ in 0..page.hact() {
        stepped.extend(&machine::step(&mut board, &cell.lent()).dots[..page.dots as usize]);
    }
    Some(drawn.iter().map(u8::to_string).collect()).filter(|_| drawn == stepped)
}

/// The addresses that a row's first line fetches, in both ways; `None` where they differ.
fn fetched(page: &Page, row: u32) -> Option<Vec<u16>> {
    let cell = OneCell::new(0);
    let line = row * page.lines_per_row() * page.ht();
    let mut board = machine::state_at(&Board::of_page(*page), &cell.chars, &cell.attrs, line);
    let stepped: Vec<u16> = (0..page.hact()).map(|_| machine::step(&mut board, &cell.lent()).address).collect();
    let column = |c: u32| match c {
        0 => sheet::row_start(page, &cell.chars, row),
        _ => sheet::place_at(page, &cell.chars, &cell.attrs, line + c).address,
    };
    let worked_out: Vec<u16> = (0..page.hact()).map(column).collect();
    Some(stepped).filter(|stepped| *stepped == worked_out)
}

/// After how many steps line and clock are 0 again.
fn frame_by_steps(page: &Page) -> u32 {
    let cell = OneCell::new(0);
    let mut board = Board::of_page(*page);
    let mut steps = 0;
    loop {
        machine::step(&mut board, &cell.lent());
        steps += 1;
        if (board.place.line, board.place.clock) == (0, 0) {
            return steps;
        }
    }
}

fn check(page: &Page) -> Refusal {
    calls::page_check(&numbers_of(page))
}

/// Each case and whether it came out.
pub fn all() -> Vec<(&'static str, bool)> {
    let mut cases = timing_cases();
    cases.extend(address_cases());
    cases.extend(dot_cases());
    cases.extend(listing_cases());
    cases.extend(field_cases());
    cases.extend(code_cases());
    cases.extend(graphics_cases());
    cases.extend(version_cases());
    cases.extend(there_cases());
    cases.extend(back_cases());
    cases.extend(phrase_cases());
    cases.extend(record_cases());
    cases.extend(pair_cases());
    cases
}

fn timing_cases() -> Vec<(&'static str, bool)> {
    let timing = |hact, ec| {
        let Refusal { number, beside } = check(&page(hact, ec));
        (page(hact, ec).ht(), page(hact, ec).hfp(), (number, beside))
    };
    let no_back_porch = |hact, ec| {
        let mut page = page(hact, ec);
        page.irs[2] &= !7;
        check(&page) == Refusal::plain(13)
    };
    vec![
        ("A1", timing(80, 35) == (102, 7, (0, 0))),
        ("A2", timing(80, 32) == (96, 1, (15, 1))),
        ("A3", timing(80, 33) == (98, 3, (0, 0))),
        ("A4", timing(81, 33) == (98, 2, (0, 0))),
        ("R-2 no front porch", timing(81, 32) == (96, 0, (15, 2))),
        ("R-2 a clock short", timing(82, 32) == (96, -1, (14, 3))),
        ("R-2 far too short", timing(256, 1) == (34, -237, (14, 239))),
        ("R-2 no back porch", no_back_porch(80, 35) && no_back_porch(80, 32) && no_back_porch(256, 1)),
        ("A5", page(80, 35).vt() == 267 && page(80, 35).frame_clocks() == 27234),
        ("A5 by steps", frame_by_steps(&page(80, 35)) == 27234),
    ]
}

fn address_cases() -> Vec<(&'static str, bool)> {
    let a6: Vec<u16> = (1000..=1023).chain(0..=55).collect();
    let a8_high: Vec<u16> = (16383..=16383).chain(0..=78).collect();
    let a8_low: Vec<u16> = (1023..=1023).chain(4095..=4173).collect();
    vec![
        ("A6", fetched(&page_in_buffer(0, 1023, 1000), 0) == Some(a6)),
        ("A6 row 1", fetched(&page_in_buffer(0, 1023, 1000), 1) == Some((56..=135).collect())),
        ("A7", fetched(&page_in_buffer(2048, 3071, 0), 0) == Some((0..=79).collect())),
        ("A8 at 16383", fetched(&page_in_buffer(4095, 1023, 16383), 0) == Some(a8_high)),
        ("A8 at 1023", fetched(&page_in_buffer(4095, 1023, 1023), 0) == Some(a8_low)),
    ]
}

fn dot_cases() -> Vec<(&'static str, bool)> {
    let wide = |dots| Page { dots, ..example_page() };
    let reversed = Page { switches: 1 | 4, ..example_page() };
    vec![
        ("A9 with 12", first_line(&wide(12), 0).as_deref() == Some("010000010000")),
        ("A9 with 8", first_line(&wide(8), 0).as_deref() == Some("10000010")),
        ("A10", first_line(&reversed, 0x91).as_deref() == Some("20000020")),
    ]
}

fn listing_cases() -> Vec<(&'static str, bool)> {
    let input = OneCell::new(0).listing_input(&example_page());
    let damaged = |places: &[(usize, u8)]| {
        let mut bytes = input.clone();
        places.iter().for_each(|&(at, byte)| bytes[at] = byte);
        listing(&bytes)
    };
    let (page_switches, page_dots, font_version) = (5 + 21, 5 + 22, files::PAGE_FILE);
    let whole = "2 8\no.....o.\nooooooo.\n";
    vec![
        ("the listing", listing(&input) == whole),
        ("no byte at all", listing(&[]) == "refused 1\n"),
        ("part of a page", listing(&input[..100]) == "refused 2\n"),
        ("no font byte", listing(&input[..files::PAGE_FILE]) == "refused 1\n"),
        ("a font byte too many", listing(&[&input[..], &[0]].concat()) == "refused 2\n"),
        ("a page of version 0", damaged(&[(0, 0)]) == "refused 1\n"),
        ("a page of version 4", damaged(&[(0, 4)]) == "refused 1\n"),
        ("version 2 as version 3", damaged(&[(0, 3)]) == "refused 2\n"),
        ("a page of version 2", damaged(&[(0, 2)]) == whole),
        ("switch 4 in version 1", damaged(&[(page_switches, 0x11)]) == "refused 12\n"),
        ("switch 4 in version 2", damaged(&[(0, 2), (page_switches, 0x11)]) == whole),
        ("switch 5 in version 1", damaged(&[(page_switches, 0x21)]) == "refused 12\n"),
        ("switch 5 in version 2", damaged(&[(0, 2), (page_switches, 0x21)]) == whole),
        ("switch 6 in version 2", damaged(&[(0, 2), (page_switches, 0x41)]) == "refused 12\n"),
        ("switch 7 in version 2", damaged(&[(0, 2), (page_switches, 0x81)]) == "refused 12\n"),
        ("a font of version 0", damaged(&[(font_version, 0)]) == "refused 1\n"),
        ("a font of version 3", damaged(&[(font_version, 3)]) == "refused 1\n"),
        ("version 1 of a font as version 2", damaged(&[(font_version, 2)]) == "refused 2\n"),
        ("five dots", damaged(&[(page_dots, 5)]) == "refused 6\n"),
        ("page first", damaged(&[(page_dots, 5), (font_version, 2)]) == "refused 6\n"),
    ]
}

/// Two rows of three cells, all with 01's character. Cell 1 sets reverse, cell 5 highlight and underline, which is on scan
/// line 0; cell 2 has bits without AFLG.
fn six_cells(version: u8, switches: u8) -> (Page, OneCell) {
    let mut page = Page { version, switches: 1 | switches, ..example_page() };
    page.irs[4] = 1;
    page.irs[5] = 2;
    let mut cells = OneCell::new(0);
    cells.chars[..6].fill(0x81);
    cells.attrs[..6].copy_from_slice(&[0, 0x81, 0x11, 0, 0, 0x98]);
    (page, cells)
}

/// The listing of the six cells; `None` where steps show another picture, in frame 0 or in frame 1.
fn six_listed(version: u8, switches: u8) -> Option<String> {
    let (page, cells) = six_cells(version, switches);
    let listed = listing(&cells.listing_input(&page));
    let mut board = Board::of_page(page);
    let same = (0..2).all(|_| format!("4 24\n{}", frame_text(&mut board, &cells.lent())) == listed);
    Some(listed).filter(|_| same)
}

/// What the steps of a frame show, in the letters of a listing.
fn frame_text(board: &mut Board, lent: &Lent) -> String {
    let page = board.page;
    let mut text = String::new();
    for _ in 0..page.frame_clocks() {
        let (line, clock) = (board.place.line, board.place.clock);
        let shown = machine::step(board, lent);
        if line < page.visible_lines() && clock < page.hact() {
            text.extend(shown.dots[..page.dots as usize].iter().map(|&level| ['.', 'o', '#'][usize::from(level)]));
            text.push_str(if clock + 1 == page.hact() { "\n" } else { "" });
        }
    }
    text
}

fn field_cases() -> Vec<(&'static str, bool)> {
    let is = |version: u8, switches: u8, lines: [&str; 4]| {
        let cells: String = lines.iter().map(|line| line.replace(' ', "") + "\n").collect();
        six_listed(version, switches) == Some(format!("4 24\n{}", cells))
    };
    let character = [
        "o.....o. .ooooo.o o.....o.",
        "ooooooo. .......o ooooooo.",
        "o.....o. o.....o. ########",
        "ooooooo. ooooooo. #######.",
    ];
    let acd_low = [
        "o.....o. oooooooo .ooooo.o",
        "ooooooo. oooooooo .......o",
        ".ooooo.o .ooooo.o ########",
        ".......o .......o ........",
    ];
    let acd_high = [
        "o.....o. .ooooo.o .ooooo.o",
        "ooooooo. .......o .......o",
        ".ooooo.o .ooooo.o ########",
        ".......o .......o #######.",
    ];
    vec![
        ("R-1 version 1", is(1, 0, character)),
        ("R-1 character mode", is(2, 0, character)),
        ("R-1 character mode, ACD high", is(2, 0x20, character)),
        ("R-1 ACD low", is(2, 0x10, acd_low)),
        ("R-1 ACD high", is(2, 0x30, acd_high)),
    ]
}

/// Where the row table of these pages stands.
const TABLE: u16 = 100;

/// Rows of the codes 00, 01, 10 and 11, all of them from cell 0 on. All cells have 01's character, and cell 1 sets reverse.
fn four_rows(version: u8, switches: u8, hact: u32, dots: u32) -> (Page, OneCell) {
    let mut page = Page { version, switches: 1 | switches, start2: TABLE, dots, ..example_page() };
    page.irs[0] |= 0x80;
    // EC 2 and row table, for a front porch of 2 with five cells
    page.irs[1] = 1;
    page.irs[2] |= 0x80;
    page.irs[4] = 3;
    page.irs[5] = (hact - 1) as u8;
    let mut cells = OneCell::new(0);
    cells.chars[..6].fill(0x81);
    cells.attrs[1] = 0x81;
    for row in 0..4 {
        cells.chars[usize::from(TABLE) + 2 * row + 1] = (row as u8) << 6;
    }
    (page, cells)
}

/// The listing of four rows, without blanks; `None` where steps show another picture, in frame 0 or in frame 1.
fn four_listed((page, cells): (Page, OneCell)) -> Option<String> {
    let listed = listing(&cells.listing_input(&page));
    let head = format!("8 {}\n", page.line_dots());
    let mut board = Board::of_page(page);
    let same = (0..2).all(|_| head.clone() + &frame_text(&mut board, &cells.lent()) == listed);
    Some(listed).filter(|_| same)
}

fn code_cases() -> Vec<(&'static str, bool)> {
    let is = |rows: (Page, OneCell), lines: [&str; 8]| {
        let head = format!("8 {}\n", rows.0.line_dots());
        let dots: String = lines.iter().map(|line| line.replace(' ', "") + "\n").collect();
        four_listed(rows) == Some(head + &dots)
    };
    let refused = |ir: usize, bits: u8| {
        let (mut page, _) = four_rows(1, 0, 3, 8);
        page.irs[ir] ^= bits;
        check(&page)
    };
    let fetches = |row: u32, hact: u32| {
        let (page, cells) = four_rows(1, 0, hact, 8);
        let count = sheet::row_cells(&page, &cells.chars, row).len() as u32;
        (count, sheet::run(&page, &cells.chars, row).1)
    };
    let (line_0, line_1) = ("oo...... ....oo..", "oooooooo oooooo..");
    let three = [
        "o.....o. .ooooo.o o.....o.",
        "ooooooo. .......o ooooooo.",
        &format!("{} ..oooooo", line_0),
        &format!("{} ........", line_1),
        &format!("{} ..oooooo", line_0),
        &format!("{} ..oooooo", line_0),
        &format!("{} ........", line_1),
        &format!("{} ........", line_1),
    ];
    // cell 1 shows no character, and what it sets runs on: row 1 begins reversed
    let acd_low = [
        "o.....o. oooooooo .ooooo.o",
        "ooooooo. oooooooo .......o",
        "..oooooo oooo..oo oooooooo",
        "........ ......oo oooooooo",
        "..oooooo oooo..oo oooooooo",
        "..oooooo oooo..oo oooooooo",
        "........ ......oo oooooooo",
        "........ ......oo oooooooo",
    ];
    // the middle dot stands in both halves
    let seven = [
        "o.....o .ooooo.",
        "ooooooo .......",
        "oo..... .....oo",
        "ooooooo ooooooo",
        "oo..... .....oo",
        "oo..... .....oo",
        "ooooooo ooooooo",
        "ooooooo ooooooo",
    ];
    let twelve = [
        ".o.....o....",
        ".ooooooo....",
        "..oo........",
        "..oooooooooo",
        "..oo........",
        "..oo........",
        "..oooooooooo",
        "..oooooooooo",
    ];
    vec![
        ("R-4 three columns", is(four_rows(1, 0, 3, 8), three)),
        ("R-4 without IR0[7]", refused(0, 0x80) == Refusal::NONE),
        ("R-4 without the row table", refused(2, 0x80) == Refusal::plain(4)),
        ("R-4 interlace", refused(1, 0x80) == Refusal::plain(4)),
        ("R-4 field mode", is(four_rows(2, 0x10, 3, 8), acd_low)),
        ("R-4 seven dots", is(four_rows(1, 0, 2, 7), seven)),
        ("R-4 one column of twelve dots", is(four_rows(1, 0, 1, 12), twelve)),
        ("R-4 cells fetched", [1, 2, 3, 4, 5].map(|hact| fetches(2, hact).0) == [1, 1, 2, 2, 3]),
        ("R-4 first runs", [1, 2, 3, 4, 5].map(|hact| fetches(3, hact).1) == [1, 1, 2, 2, 3]),
        ("R-4 plain rows", [1, 2, 5].map(|hact| fetches(0, hact)) == [(1, 1), (2, 2), (5, 5)]),
    ]
}

/// One cell of six lines on a chip, its strike line 2 and its underline line 5: a version 3 page, 10 dots wide.
fn six_lines(chip: u8) -> Page {
    let mut page = Page { version: 3, chip, dots: 10, strike: 2, ..example_page() };
    page.irs[0] = 5 << 3;
    page.irs[7] = 5;
    page
}

/// The lines of that cell's listing, a blank between two. `None` where steps show others.
fn cell_listed(page: &Page, code: u8, attr: u8, groups: &[u8]) -> Option<String> {
    let mut cell = OneCell::new(attr);
    cell.chars[0] = code;
    cell.words[9 * 0x65] = 0x041;
    cell.groups = groups.to_vec();
    let listed = listing(&cell.listing_input(page));
    let same = format!("6 {}\n{}", page.dots, frame_text(&mut Board::of_page(*page), &cell.lent())) == listed;
    let lines = listed.lines().skip(1).collect::<Vec<&str>>().join(" ");
    Some(lines).filter(|_| same)
}

/// Lines 0 to 3 show the four pairs; the others are in no group.
const FOUR_GROUPS: [u8; 16] = [1, 2, 3, 4, 0, 0, 0, 0, 0, 0, 0, 0, 0, 0, 0, 0];

/// 002: "an example where (CA7 thru CA0) = H'65'"
fn graphics_cases() -> Vec<(&'static str, bool)> {
    let is = |page: Page, code: u8, attr: u8, lines: &str| {
        cell_listed(&page, code, attr, &FOUR_GROUPS).as_deref() == Some(lines)
    };
    let (a, b) = (six_lines(0), six_lines(1));
    let field = |upper: u8| Page { switches: 1 | upper, ..b };
    let no_groups = |page: &Page| cell_listed(page, 0x65, 0xA0, &[]);
    let none = [".........."; 6].join(" ");
    let letter = format!("o.....o... {}", [".........."; 5].join(" "));
    let h65 = "ooooo..... ooooo..... .....ooooo ooooo..... .......... ..........";
    let h9a = ".....ooooo .....ooooo ooooo..... .....ooooo .......... ..........";
    let reversed = ".....ooooo .....ooooo ooooo..... .....ooooo oooooooooo oooooooooo";
    let underlined = "#####..... #####..... .....##### #####..... .......... ##########";
    let struck = ".......... .......... oooooooooo .......... .......... ..........";
    let twelve = ".ooooo...... .ooooo...... ......ooooo. .ooooo...... ............ ............";
    vec![
        ("R-7 H'65'", is(b, 0x65, 0xA0, h65)),
        ("R-7 CA7", is(b, 0x9A, 0xA0, h9a)),
        ("R-7 reverse", is(b, 0x65, 0xA1, reversed)),
        ("R-7 highlight and underline", is(b, 0x65, 0xB8, underlined)),
        ("R-7 blank", is(b, 0x65, 0xA2, &none)),
        ("R-7 twelve dots", is(Page { dots: 12, ..b }, 0x65, 0xA0, twelve)),
        ("R-7 six dots", is(Page { dots: 6, ..b }, 0x65, 0xA0, "ooooo. ooooo. .....o ooooo. ...... ......")),
        ("R-7 without AFLG", is(b, 0x65, 0x20, &none) && is(b, 0xE5, 0x20, &letter)),
        ("R-7 without bit 5", is(b, 0x65, 0x80, &none) && is(b, 0xE5, 0x80, &letter)),
        ("R-7 chip A strikes", is(a, 0x65, 0xA0, struck)),
        ("R-7 version 2 strikes", is(Page { version: 2, ..b }, 0x65, 0xA0, struck)),
        ("R-7 ACD low", is(field(0x10), 0x65, 0xA0, &none)),
        ("R-7 ACD high", is(field(0x30), 0x65, 0xA0, h65)),
        ("R-7 no groups", no_groups(&b) == Some(none) && no_groups(&a).as_deref() == Some(struck)),
    ]
}

/// A version 3 page and a version 2 font, whole, with one byte that is another, and with bytes too few or too many.
fn version_cases() -> Vec<(&'static str, bool)> {
    let mut cell = OneCell::new(0xA0);
    cell.groups = FOUR_GROUPS.to_vec();
    let input = cell.listing_input(&six_lines(1));
    let (page_end, chip, end) = (files::CHIP_PAGE_FILE, 5 + 24, input.len());
    let with = |at: usize, byte: u8| {
        let mut bytes = input.clone();
        bytes[at] = byte;
        listing(&bytes)
    };
    let whole = listing(&input);
    let moved = |from: usize| listing(&[&input[..from], &input[from + 1..]].concat());
    let (last_line, refused_2, refused_12) = (end - 1, "refused 2\n", "refused 12\n");
    vec![
        ("R-7 sizes", (page_end, end) == (32798, 32798 + 2471) && whole.starts_with("6 10\n")),
        ("R-7 chip 0", with(chip, 0) != whole && with(chip, 0).starts_with("6 10\n")),
        ("R-7 chips above 1", with(chip, 2) == refused_12 && with(chip, 255) == refused_12),
        ("R-7 a group of 4", with(last_line, 4) == whole),
        ("R-7 groups above 4", with(last_line, 5) == refused_12 && with(end - 16, 255) == refused_12),
        ("R-7 version 3 as version 2", with(0, 2) == refused_2),
        ("R-7 version 2 of a font as version 1", with(page_end, 1) == refused_2),
        ("R-7 a byte less", moved(40) == "refused 1\n" && moved(last_line) == refused_2),
        ("R-7 a byte more", listing(&[&input[..], &[0]].concat()) == refused_2),
        ("R-7 part of a page", listing(&input[..page_end - 1]) == refused_2),
        ("R-7 no font byte", listing(&input[..page_end]) == "refused 1\n"),
    ]
}

/// The refusal of a move there or, as 0, where the table stands, and the entries of these two rows.
fn there(page: &Page, rows: [usize; 2]) -> (u32, u16, [u16; 2]) {
    let (mut numbers, mut chars) = (numbers_of(page), vec![0; 16384]);
    let refusal = calls::to_table(&mut numbers, &mut chars);
    let moved = page_of_numbers(&numbers).expect("a page stays one");
    let entry = |row: usize| {
        let at = usize::from(moved.start2) + 2 * row;
        u16::from_le_bytes([chars[at], chars[at + 1]])
    };
    let mut expected = Page { start2: moved.start2, ..*page };
    expected.irs[2] |= 0x80;
    match refusal.number {
        0 if moved == expected => (0, moved.start2, rows.map(entry)),
        number => (number, 0, [0, 0]),
    }
}

/// So many rows of HACT cells in a buffer that holds all of memory.
fn large(rows: u8, hact: u32, start1: u16) -> Page {
    let mut page = in_buffer(page(hact, 64), 0, 16383, start1);
    page.irs[4] = rows - 1;
    page
}

fn there_cases() -> Vec<(&'static str, bool)> {
    let in_buffer = |first, last, start1, rows| there(&page_in_buffer(first, last, start1), rows);
    let refused = |page: &Page| there(page, [0, 1]).0;
    let one = |start1: u16| there(&Page { start1, ..example_page() }, [0, 0]);
    let (six, _) = six_cells(1, 0);
    let (coded, _) = four_rows(1, 0, 3, 8);
    vec![
        ("R-5 two rows", there(&six, [0, 1]) == (0, 6, [0, 3])),
        ("R-5 one cell", one(0) == (0, 1, [0, 0]) && one(1) == (0, 2, [1, 1]) && one(2) == (0, 0, [2, 2])),
        ("R-5 A6", in_buffer(0, 1023, 1000, [0, 1]) == (0, 1024, [1000, 56])),
        ("R-5 A7", in_buffer(2048, 3071, 0, [1, 23]) == (0, 1920, [80, 1840])),
        ("R-5 A8", in_buffer(4095, 1023, 16383, [1, 13]) == (0, 1024, [79, 4110])),
        ("R-5 just enough cells", there(&large(128, 126, 0), [1, 127]) == (0, 16128, [126, 16002])),
        ("R-5 a cell too few", refused(&large(113, 143, 0)) == 17),
        ("R-5 enough over 16383", refused(&large(128, 126, 100)) == 17),
        ("R-5 there already", refused(&coded) == 16),
    ]
}

/// The refusal of a move back, or as 0 the screen start 1 of two rows with these entries. Bytes after the page's own are kept.
fn back(row_0: u16, row_1: u16, ir0: u8) -> (u32, u16) {
    let (mut page, cells) = six_cells(1, 0);
    page.irs[0] |= ir0;
    page.irs[2] |= 0x80;
    page.start2 = 16381;
    let (mut numbers, mut chars) = (numbers_of(&page), cells.chars);
    numbers[31] = 77;
    for (at, byte) in [row_0.to_le_bytes(), row_1.to_le_bytes()].concat().into_iter().enumerate() {
        chars[(16381 + at) % 16384] = byte;
    }
    let refusal = calls::to_sheet(&mut numbers, &chars);
    let moved = page_of_numbers(&numbers).expect("a page stays one");
    let mut expected = Page { start1: moved.start1, ..page };
    expected.irs[2] &= 0x7F;
    match refusal.number {
        0 if moved == expected && numbers[31] == 77 => (0, moved.start1),
        number => (number, 0),
    }
}

fn back_cases() -> Vec<(&'static str, bool)> {
    let (sheet, _) = six_cells(1, 0);
    let already = calls::to_sheet(&mut numbers_of(&sheet), &[0; 16384]) == Refusal::plain(16);
    vec![
        ("R-5 back", back(500, 503, 0) == (0, 500)),
        ("R-5 back over 1023", back(1022, 1, 0) == (0, 1022)),
        ("R-5 back with upper bits", back(0xC000 | 500, 0x4000 | 503, 0) == (0, 500)),
        ("R-5 an entry apart", [502, 504, 0x2000 | 503].map(|row_1| back(500, row_1, 0)) == [(18, 0); 3]),
        ("R-5 codes", back(500, 503, 0x80) == (19, 0) && back(500, 504, 0x80) == (19, 0)),
        ("R-5 back already", already),
    ]
}

/// The refusal for a row, or 0 with the position of the record that holds it: records of these first cells and lengths.
fn phrase((page, chars): (&Page, &[u8]), row: u32, records: &[(u32, u32)]) -> (u32, Option<usize>, usize) {
    let of = |&(first, length): &(u32, u32)| Phrase { language: 1, number: 1, first, length };
    let list: Vec<Phrase> = records.iter().map(of).collect();
    let (refusal, found, position) = calls::phrase_of_row(&numbers_of(page), chars, &list, row);
    match (refusal.number, found) {
        (0, true) => (0, Some(position), 0),
        (number, _) => (number, None, position),
    }
}

const NO_PHRASE: (u32, Option<usize>, usize) = (0, None, 0);

fn phrase_cases() -> Vec<(&'static str, bool)> {
    let in_buffer = |first, last, start1, row: u32, records: &[(u32, u32)]| {
        phrase((&page_in_buffer(first, last, start1), &[0; 16384]), row, records)
    };
    let a7 = |records: &[(u32, u32)]| in_buffer(2048, 3071, 0, 0, records);
    let a8 = |start1: u16, records: &[(u32, u32)]| in_buffer(4095, 1023, start1, 0, records);
    let wide = |row: u32, hact: u32, records: &[(u32, u32)]| {
        let (page, cells) = four_rows(1, 0, hact, 8);
        phrase((&page, &cells.chars), row, records)
    };
    let found = |position: usize| (0, Some(position), 0);
    // row 0 fetches 1000 to 1023 and 0 to 55
    let a6 = [(1000, 24), (0, 56), (55, 946), (0, 1023), (1, 1023), (0, 1024)];
    vec![
        ("R-6 A7", a7(&[(0, 79), (1, 80), (0, 80)]) == found(2)),
        ("R-6 the lowest of several", a7(&[(80, 5), (0, 100), (0, 80), (0, 16384)]) == found(1)),
        ("R-6 none", a7(&[]) == NO_PHRASE && a7(&[(0, 79), (1, 79), (0, 40), (40, 40)]) == NO_PHRASE),
        ("R-6 A6", in_buffer(0, 1023, 1000, 0, &a6) == found(5)),
        ("R-6 A6 row 1", in_buffer(0, 1023, 1000, 1, &[(56, 79), (57, 80), (56, 80)]) == found(2)),
        ("R-6 A8 at 1023", a8(1023, &[(1023, 3150), (1024, 3150), (1023, 3151)]) == found(2)),
        ("R-6 A8 at 16383", a8(16383, &[(16383, 1), (0, 79), (0, 16383), (1, 16383), (0, 16384)]) == found(4)),
        (
            "R-6 double width",
            [0, 1, 2, 3].map(|row| wide(row, 4, &[(0, 2)])) == [NO_PHRASE, found(0), found(0), found(0)],
        ),
        ("R-6 half a cell", wide(1, 5, &[(0, 2), (1, 3), (0, 3)]) == found(2)),
    ]
}

fn record_cases() -> Vec<(&'static str, bool)> {
    let ask = |row: u32, records: &[(u32, u32)]| phrase((&page_in_buffer(2048, 3071, 0), &[0; 16384]), row, records);
    let refused = |record: (u32, u32)| ask(0, &[(0, 80), record, (0, 0)]) == (20, None, 1);
    let taken = |record: (u32, u32)| ask(0, &[record, (0, 80)]) == (0, Some(1), 0);
    vec![
        ("R-6 length 0", refused((5, 0)) && refused((0, 0)) && refused((u32::MAX, 0))),
        ("R-6 passing 16383", refused((0, 16385)) && refused((16383, 2)) && refused((16384, 1))),
        ("R-6 no wrapping", refused((u32::MAX, 2)) && refused((2, u32::MAX)) && refused((u32::MAX, u32::MAX))),
        ("R-6 up to 16383", taken((16383, 1)) && taken((1, 16383)) && ask(0, &[(0, 16384)]) == (0, Some(0), 0)),
        ("R-6 the row first", ask(24, &[(5, 0)]) == (7, None, 0) && ask(24, &[]) == (7, None, 0)),
    ]
}

/// Language, number, first cell and length of each record: the refusal, and the pair or the record refused.
fn differing(records: &[[u32; 4]]) -> (u32, bool, usize, usize) {
    let of = |&[language, number, first, length]: &[u32; 4]| Phrase { language, number, first, length };
    let (refusal, found, earlier, later) = calls::phrases_differ(&records.iter().map(of).collect::<Vec<Phrase>>());
    (refusal.number, found, earlier, later)
}

fn pair_cases() -> Vec<(&'static str, bool)> {
    let none = |records: &[[u32; 4]]| differing(records) == (0, false, 0, 0);
    let [a, b, c, d] = [[1, 1, 5, 2], [1, 1, 6, 2], [2, 2, 5, 2], [2, 2, 5, 3]];
    vec![
        ("R-6 no pair", none(&[]) && none(&[a]) && none(&[a, a, a]) && none(&[a, c, a, c])),
        ("R-6 another name", none(&[a, [1, 2, 6, 3], [2, 1, 7, 4]])),
        ("R-6 first cell", differing(&[a, b]) == (0, true, 0, 1)),
        ("R-6 length", differing(&[c, d]) == (0, true, 0, 1)),
        ("R-6 the earlier first", differing(&[a, c, d, b]) == (0, true, 0, 3)),
        ("R-6 then the later", differing(&[a, a, c, b, b]) == (0, true, 0, 3)),
        ("R-6 a record refused", differing(&[a, b, [9, 9, 0, 0], [9, 9, 16384, 1]]) == (20, false, 2, 0)),
    ]
}

#[cfg(test)]
mod tests {
    #[test]
    fn every_case_comes_out() {
        for (name, came_out) in super::all() {
            assert!(came_out, "{}", name);
        }
    }
}
