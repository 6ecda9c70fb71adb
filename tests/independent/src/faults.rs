//! Every refusal of every call, alone, in pairs and all at once, so that the order of refusals shows.

use crate::board::{Board, Page, FONT_GROUPS};
use crate::dice::{with_codes, Dice};
use crate::files::{bytes_of, font_length, page_length, page_of, FONT_FILE};
use crate::make::{Maker, Script};
use crate::records::Phrase;
use crate::script::{board_text, hex, phrases_text};

pub const BUFFERS: [&str; 12] = [
    "numbers",
    "chars",
    "attrs",
    "words",
    "flags",
    "unshifted",
    "shifted",
    "groups",
    "file",
    "out",
    "cells",
    "phrases",
];
const FILE: usize = 8;
const PHRASES: usize = 11;

/// The calls that take no board, and those that do.
const ALONE: [&str; 14] = [
    "page_check",
    "page_size",
    "board_of",
    "page_read",
    "page_write",
    "font_read",
    "line_draw",
    "picture_draw",
    "row_run",
    "row_cells",
    "phrase_of_row",
    "phrases_differ",
    "to_table",
    "to_sheet",
];
const WITH_BOARD: [&str; 6] = ["numbers_of", "set_video", "write", "read", "state_at", "step"];

/// Everything that a call is handed. The board's page is also the page of the numbers and of the page file, and its version
/// is that of a font file too.
#[derive(Clone)]
pub struct Case {
    board: Board,
    file_length: u32,
    /// Elements of each buffer; `None` is NULL.
    sizes: [Option<usize>; 12],
    line: u32,
    row: u32,
    address: u8,
    byte: u8,
    dots: u8,
    strike: u8,
    /// For `to_sheet` and `phrase_of_row`, the row table at cell 0.
    entries: [u16; 2],
    phrases: [Phrase; 5],
    /// Those that are lent, and those of a font file.
    groups: [u8; FONT_GROUPS],
}

/// Something wrong, or something that a call does not judge.
pub type Fault = Box<dyn Fn(&mut Case)>;

/// Which page a case begins with: its version, of which 3 is of chip B; whether it is in field mode, and its rows have
/// codes.
#[derive(Clone, Copy)]
struct Base {
    version: u8,
    field: bool,
    codes: bool,
}

/// HFP 3; 2 rows of 3 lines of 6 cells, 8 dots. It is a sheet, but for `to_sheet`.
fn base(call: &str, resets: u8, Base { version, field, codes }: Base) -> Case {
    let (switches, chip) = (if field { 0x1B } else { 0x0B }, u8::from(version == 3));
    let mut page = Page { version, switches, dots: 8, strike: 1, chip, start1: 1020, ..Page::default() };
    page.irs = [0x10, 2, 0x01, 0, 1, 5, 0x02, 0x42, 0, 0, 9, 9, 9, 9, 9];
    if call == "to_sheet" {
        page.irs[2] |= 0x80;
    }
    if codes {
        page = with_codes(page);
    }
    assert_eq!(page.hfp(), 3);
    let length_of = if call == "font_read" { font_length } else { page_length };
    let file_length = length_of(version).expect("a case begins with a version that is known");
    let file = 5 + file_length as usize;
    let out = match call {
        "page_write" => file,
        "picture_draw" => page.picture_dots(),
        _ => page.line_dots(),
    };
    let sizes = [32, 16384, 16384, 1152, 128, 9, 9, 16, file, out, 256, 5];
    Case {
        board: Board { page, resets, pointer: 3, ..Board::default() },
        file_length,
        sizes: sizes.map(Some),
        line: 5,
        row: 1,
        address: 2,
        byte: 0x29,
        dots: 9,
        strike: 15,
        // six cells from 1020 on: after 1023 comes 0
        entries: [1020, 2],
        phrases: base_phrases(),
        groups: [1, 1, 2, 2, 3, 3, 4, 0, 4, 3, 2, 1, 0, 0, 1, 4],
    }
}

/// Cells 2 to 7, which row 1 fetches, are held by the records 1 and 3. No two differ.
fn base_phrases() -> [Phrase; 5] {
    let elsewhere = Phrase { language: 1, number: 1, first: 100, length: 50 };
    let row = Phrase { language: 1, number: 2, first: 2, length: 6 };
    let all = Phrase { language: 2, number: 1, first: 0, length: 16384 };
    [elsewhere, row, Phrase { language: 2, number: 2, first: 16383, length: 1 }, all, elsewhere]
}

fn fault(act: impl Fn(&mut Case) + 'static) -> Fault {
    Box::new(act)
}

/// NULL, none, one too few, one too many, far too many; the last two are right where more room than needed is taken.
fn sizes(name: &'static str, right: usize) -> Vec<Fault> {
    let buffer = BUFFERS.iter().position(|&one| one == name).expect("a buffer's name");
    let wrong = [None, Some(0), Some(right - 1), Some(right + 1), Some(2 * right + 1)];
    wrong.iter().map(|&size| fault(move |case| case.sizes[buffer] = size)).collect()
}

fn numbers_faults() -> Vec<Fault> {
    sizes("numbers", 32).into_iter().chain(version_faults()).collect()
}

/// Neither 1, 2 nor 3, and these three, which differ in their switches and in the chip.
fn version_faults() -> Vec<Fault> {
    [0, 4, 255, 1, 2, 3]
        .iter()
        .map(|&version| fault(move |case: &mut Case| case.board.page.version = version))
        .collect()
}

fn memory_faults() -> Vec<Fault> {
    [sizes("chars", 16384), sizes("attrs", 16384)].into_iter().flatten().collect()
}

fn font_faults() -> Vec<Fault> {
    let lists = [sizes("words", 1152), sizes("flags", 128), sizes("unshifted", 9), sizes("shifted", 9)];
    lists.into_iter().chain([sizes("groups", FONT_GROUPS), group_faults()]).flatten().collect()
}

/// 12 at the first place, in the middle and at the last; and what is not refused: 4 at each of them.
fn group_faults() -> Vec<Fault> {
    let group = |at: usize, group: u8| fault(move |case| case.groups[at] = group);
    let all_4 = fault(|case| [0, 7, 15].iter().for_each(|&at| case.groups[at] = 4));
    vec![group(0, 5), group(7, 255), group(15, 5), all_4]
}

/// 12 but for the strike line.
fn address_faults() -> Vec<Fault> {
    vec![
        fault(|case| case.board.page.start1 = 16384),
        fault(|case| case.board.page.start1 = 65535),
        fault(|case| case.board.page.cursor = 16384),
        fault(|case| case.board.page.start2 = 16384),
        fault(|case| case.board.page.switches |= 0x10),
        fault(|case| case.board.page.switches |= 0x20),
        fault(|case| case.board.page.switches |= 0x40),
        fault(|case| case.board.page.switches |= 0x80),
        // in version 3 alone, and the two chips
        fault(|case| case.board.page.chip = 2),
        fault(|case| case.board.page.chip = 255),
        fault(|case| case.board.page.chip = 0),
        fault(|case| case.board.page.chip = 1),
    ]
}

fn strike_faults() -> Vec<Fault> {
    vec![fault(|case| case.board.page.strike = 16), fault(|case| case.board.page.strike = 255)]
}

/// HACT (0 for 256), EC, the codes of HSYNC and HBP, and the front porch that they make: 2EC + 3HSYNC - HACT - HBP.
const PORCHES: [(u8, u8, u8, u8, i32); 10] = [
    // the longest one, and what is just enough
    (1, 128, 15, 1, 348),
    (5, 2, 0, 1, 2),
    // 15: a clock short, and a line that just fits
    (6, 2, 0, 1, 1),
    (5, 1, 0, 1, 0),
    (9, 15, 0, 7, 0),
    // 14: the line itself a clock short, two, and as many as can be
    (6, 1, 0, 1, -1),
    (7, 1, 0, 1, -2),
    (255, 1, 0, 1, -250),
    (255, 1, 0, 7, -274),
    (0, 1, 0, 7, -275),
];

/// 4, 13, 14, 15 and 6.
fn timing_faults() -> Vec<Fault> {
    let mut all = vec![
        fault(|case| case.board.page.irs[0] |= 0x80),
        fault(|case| case.board.page.irs[1] |= 0x80),
        // the row table, on and off
        fault(|case| case.board.page.irs[2] |= 0x80),
        fault(|case| case.board.page.irs[2] &= 0x7F),
    ];
    all.extend(PORCHES.iter().map(|&porch| fault(move |case| set_porch(&mut case.board.page, porch))));
    // after the porches, so that it stands beside each of them
    all.push(fault(|case| case.board.page.irs[2] &= !7));
    all.extend([5, 13, 0, 255].map(|dots| fault(move |case| case.board.page.dots = dots)));
    all
}

/// What else these registers hold is kept.
fn set_porch(page: &mut Page, (hact, ec, hsync, hbp, hfp): (u8, u8, u8, u8, i32)) {
    page.irs[1] = page.irs[1] & 0x80 | (ec - 1);
    page.irs[2] = page.irs[2] & 0x80 | hsync << 3 | hbp;
    page.irs[5] = hact.wrapping_sub(1);
    assert_eq!(page.hfp(), hfp);
}

fn page_faults() -> Vec<Fault> {
    [address_faults(), strike_faults(), timing_faults()].into_iter().flatten().collect()
}

fn pointer_faults() -> Vec<Fault> {
    vec![fault(|case| case.board.pointer = 15), fault(|case| case.board.pointer = 255)]
}

/// What only a board can hold, and no page's numbers.
fn place_faults() -> Vec<Fault> {
    vec![
        fault(|case| case.board.place.line = case.board.page.vt()),
        fault(|case| case.board.place.line = u32::MAX),
        fault(|case| case.board.place.clock = case.board.page.ht()),
        fault(|case| case.board.place.clock = u32::MAX),
        fault(|case| case.board.place.address = 16384),
        fault(|case| case.board.place.address = 65535),
        fault(|case| case.board.place.row_start = 16384),
        fault(|case| case.board.place.row_start = 65535),
        // no byte of a latch is refused
        fault(|case| case.board.place.latch = 0x7F),
        fault(|case| case.board.place.latch = 0xFF),
        fault(|case| case.board.place.row_latch = 0x3F),
        fault(|case| case.board.place.row_latch = 0xC1),
        // nor is one of a row's code
        fault(|case| case.board.place.row_code = 0x02),
        fault(|case| case.board.place.row_code = 0xFF),
        fault(|case| case.board.page.dots = 0x100 + 8),
        fault(|case| case.board.page.dots = u32::MAX),
    ]
}

fn file_faults() -> Vec<Fault> {
    let mut all = version_faults();
    all.extend([
        fault(|case| case.file_length += 1),
        fault(|case| case.file_length ^= 0x8000_0000),
        fault(|case| case.sizes[FILE] = Some(1)),
        fault(|case| case.sizes[FILE] = Some(4)),
        fault(|case| case.sizes[FILE] = Some(5)),
    ]);
    all.extend([0, 1, 2].map(|how| {
        fault(move |case| {
            let right = 5 + (case.file_length & 0xFFFF) as usize;
            case.sizes[FILE] = [None, Some(right - 1), Some(right + 1)][how];
        })
    }));
    all
}

/// What a page file or a font file can have wrong itself.
pub fn of_file(call: &str) -> Vec<Fault> {
    let parts = if call == "page_read" { page_faults() } else { group_faults() };
    file_faults().into_iter().chain(parts).collect()
}

/// The file with these faults.
pub fn spoiled(call: &str, file: &[u8], faults: &[&Fault]) -> Vec<u8> {
    let mut case = base(call, 2, Base { version: file[0], field: false, codes: false });
    if call == "page_read" {
        case.board.page = page_of(file[0], &file[5..]);
    } else if file.len() > FONT_FILE {
        case.groups.copy_from_slice(&file[FONT_FILE..]);
    }
    faults.iter().for_each(|fault| fault(&mut case));
    let mut spoiled = file.to_vec();
    spoiled.resize(case.sizes[FILE].unwrap_or(0), 0);
    for (at, bytes) in file_parts(call, &case) {
        spoiled.iter_mut().skip(at).zip(bytes).for_each(|(old, new)| *old = new);
    }
    spoiled
}

fn register_faults(call: &str) -> Vec<Fault> {
    let mut all = vec![fault(|case| case.address = 8), fault(|case| case.address = 255)];
    if call == "write" {
        let bytes = [0x1F, 0x20, 0x22, 0x3B, 0x40, 0x80, 0xA9, 0xFF];
        all.extend(bytes.iter().map(|&byte| {
            fault(move |case: &mut Case| {
                case.address = if case.address > 7 { case.address } else { 1 };
                case.byte = byte;
            })
        }));
    }
    all
}

fn video_faults() -> Vec<Fault> {
    let mut all = vec![fault(|case| case.strike = 16), fault(|case| case.strike = 255)];
    all.extend([0, 5, 13, 255].iter().map(|&dots| fault(move |case: &mut Case| case.dots = dots)));
    all
}

fn asked_faults(call: &str) -> Vec<Fault> {
    match call {
        "line_draw" => vec![fault(|case| case.line = 6), fault(|case| case.line = u32::MAX)],
        _ => vec![fault(|case| case.row = 2), fault(|case| case.row = u32::MAX)],
    }
}

/// 17: every cell is fetched, with a front porch of 3 and with one of 1. Of the porches that come after, some leave it so.
fn stretch_faults() -> Vec<Fault> {
    let full = |case: &mut Case, ec: u8, hfp: i32| {
        case.board.page.irs[4] = 127;
        case.board.page.irs[9] = 0xF0;
        set_porch(&mut case.board.page, (0, ec, 0, 1, hfp));
    };
    vec![fault(move |case| full(case, 128, 3)), fault(move |case| full(case, 127, 1))]
}

/// 18, and upper bits that do not count.
fn entry_faults() -> Vec<Fault> {
    vec![
        fault(|case| case.entries[1] += 1),
        fault(|case| case.entries[1] ^= 0x2000),
        fault(|case| case.entries[0] ^= 1),
        // as if there were no last buffer address
        fault(|case| case.entries[1] = 1026),
        fault(|case| case.entries = case.entries.map(|entry| entry ^ 0xC000)),
    ]
}

/// What a call that is asked for a row is lent beside the page.
fn beside_page(call: &str) -> Vec<Fault> {
    match call {
        "row_cells" => sizes("cells", 256),
        "phrase_of_row" => phrase_faults().into_iter().chain(other_rows()).collect(),
        _ => Vec::new(),
    }
}

/// Row 1 of double width, where rows have codes; and row 0, which wraps.
fn other_rows() -> Vec<Fault> {
    vec![fault(|case| case.entries[1] |= 0x4000), fault(|case| case.row = 0)]
}

/// 20 at each place, by a length of 0, by one cell, by much, and by sums that 32 bits do not hold; and what is not refused: a list
/// of no, one and four records, a row that fewer hold, and two records that differ.
fn phrase_faults() -> Vec<Fault> {
    let lengths = [None, Some(0), Some(1), Some(4)];
    let mut all: Vec<Fault> = lengths.map(|size| fault(move |case| case.sizes[PHRASES] = size)).into();
    let stretch = |at: usize, first: u32, length: u32| {
        fault(move |case| case.phrases[at] = Phrase { first, length, ..case.phrases[at] })
    };
    all.extend([
        stretch(0, 7, 0),
        stretch(0, 16383, 2),
        stretch(1, 2, u32::MAX),
        stretch(2, 0, 16385),
        stretch(3, u32::MAX, 8),
        stretch(4, u32::MAX, u32::MAX),
        stretch(4, 16384, 1),
        // row 1 but for its last cell, and for its first
        stretch(1, 2, 5),
        stretch(3, 3, 16381),
        // another first cell, and another length, than record 0 has
        stretch(4, 101, 50),
        stretch(4, 100, 49),
    ]);
    all
}

/// A file's output: nothing, a byte too few for a version's file, enough, and more.
fn out_faults() -> Vec<Fault> {
    let room = |size| fault(move |case: &mut Case| case.sizes[FILE + 1] = size);
    [None, Some(0), Some(32796), Some(32797), Some(32798), Some(32799), Some(65595)].map(room).into()
}

fn faults_of(call: &str) -> Vec<Fault> {
    let parts: Vec<Vec<Fault>> = match call {
        "page_check" | "page_size" | "board_of" => vec![numbers_faults(), page_faults()],
        "page_read" => vec![of_file(call), sizes("numbers", 32), memory_faults()],
        "page_write" => vec![numbers_faults(), memory_faults(), page_faults(), out_faults()],
        "font_read" => vec![of_file(call), font_faults()],
        "line_draw" => {
            let lent = vec![numbers_faults(), memory_faults(), font_faults()];
            let asked = vec![page_faults(), asked_faults(call), sizes("out", 48)];
            lent.into_iter().chain(asked).collect()
        }
        "picture_draw" => {
            vec![numbers_faults(), memory_faults(), font_faults(), page_faults(), sizes("out", 288)]
        }
        "row_run" | "row_cells" | "phrase_of_row" => {
            let lent = vec![numbers_faults(), sizes("chars", 16384), beside_page(call)];
            lent.into_iter().chain([page_faults(), asked_faults(call)]).collect()
        }
        "phrases_differ" => vec![phrase_faults()],
        "to_table" => vec![numbers_faults(), sizes("chars", 16384), stretch_faults(), page_faults()],
        "to_sheet" => vec![numbers_faults(), sizes("chars", 16384), entry_faults(), page_faults()],
        // it judges neither place nor pointer, nor what the numbers held before
        "numbers_of" => vec![numbers_faults(), page_faults(), pointer_faults(), place_faults()],
        // what these three do not judge stands here too: the place, 4, 13 to 15, and for the first the pointer
        "set_video" => {
            let judged = vec![version_faults(), address_faults(), video_faults()];
            judged.into_iter().chain([strike_faults(), timing_faults(), pointer_faults(), place_faults()]).collect()
        }
        "write" | "read" => {
            vec![version_faults(), page_faults(), pointer_faults(), register_faults(call), place_faults()]
        }
        "state_at" => vec![memory_faults(), version_faults(), page_faults(), pointer_faults(), place_faults()],
        _ => {
            let lent = vec![memory_faults(), font_faults()];
            lent.into_iter().chain([version_faults(), page_faults(), pointer_faults(), place_faults()]).collect()
        }
    };
    parts.into_iter().flatten().collect()
}

/// Which buffers a call is lent.
fn lent_to(call: &str) -> &'static [&'static str] {
    match call {
        "page_check" | "page_size" | "board_of" | "numbers_of" => &BUFFERS[..1],
        "page_read" => &["file", "numbers", "chars", "attrs"],
        "page_write" => &["numbers", "chars", "attrs", "out"],
        "font_read" => &["file", "words", "flags", "unshifted", "shifted", "groups"],
        "line_draw" | "picture_draw" => {
            &["numbers", "chars", "attrs", "words", "flags", "unshifted", "shifted", "groups", "out"]
        }
        "row_run" | "to_table" | "to_sheet" => &BUFFERS[..2],
        "row_cells" => &["numbers", "chars", "cells"],
        "phrase_of_row" => &["numbers", "chars", "phrases"],
        "phrases_differ" => &["phrases"],
        "state_at" => &BUFFERS[1..3],
        "step" => &BUFFERS[1..8],
        _ => &[],
    }
}

/// Which of them it writes.
fn written_by(call: &str) -> &'static [&'static str] {
    match call {
        "page_read" => &["numbers", "chars", "attrs"],
        "font_read" => &["words", "flags", "unshifted", "shifted", "groups"],
        "page_write" | "line_draw" | "picture_draw" => &["out"],
        "row_cells" => &["cells"],
        "numbers_of" | "to_sheet" => &["numbers"],
        "to_table" => &["numbers", "chars"],
        _ => &[],
    }
}

fn arguments(call: &str, case: &Case) -> String {
    match call {
        "line_draw" => format!(" {} 7", case.line),
        "picture_draw" => " 7".to_string(),
        "row_run" | "row_cells" | "phrase_of_row" => format!(" {}", case.row),
        "set_video" => format!(" {} {} 255 0", case.dots, case.strike),
        "write" => format!(" {} {}", case.address, case.byte),
        "read" => format!(" {}", case.address),
        "state_at" => " 100".to_string(),
        "step" => " 2".to_string(),
        _ => String::new(),
    }
}

/// A file's version and length, then a page file's numbers, or at its end a font file's groups; each with its place.
fn file_parts(call: &str, case: &Case) -> Vec<(usize, Vec<u8>)> {
    let head = [vec![case.board.page.version], case.file_length.to_be_bytes().to_vec()].concat();
    match call {
        "page_read" => vec![(0, [head, bytes_of(&case.board.page)].concat())],
        _ => vec![(0, head), (FONT_FILE, case.groups.to_vec())],
    }
}

/// The lines that make one buffer: random elements, and the page's bytes where it holds a page, or the groups.
fn buffer_lines(name: &str, call: &str, case: &Case) -> Vec<String> {
    let index = BUFFERS.iter().position(|&one| one == name).expect("a buffer's name");
    let size = match case.sizes[index] {
        Some(size) => size,
        None => return vec![format!("none {}", name)],
    };
    let mut lines = vec![format!("fill {} {} {}", name, size, 1_000_000_007 + index)];
    if name == "phrases" && size > 0 {
        lines.push(format!("set phrases 0 {}", phrases_text(&case.phrases[..size])));
        return lines;
    }
    let parts = match name {
        // these two only write them
        "numbers" if call != "page_read" && call != "numbers_of" => {
            vec![(0, [vec![case.board.page.version], bytes_of(&case.board.page)].concat())]
        }
        "chars" if ["to_sheet", "phrase_of_row"].contains(&call) => {
            vec![(0, case.entries.iter().flat_map(|entry| entry.to_le_bytes()).collect())]
        }
        "file" => file_parts(call, case),
        // a file's groups come in the place of what stood there
        "groups" if call != "font_read" => vec![(0, case.groups.to_vec())],
        _ => Vec::new(),
    };
    for (at, bytes) in parts {
        let room = bytes.len().min(size.saturating_sub(at));
        if room > 0 {
            lines.push(format!("set {} {} {}", name, at, hex(&bytes[..room])));
        }
    }
    lines
}

/// Says again only what differs from the case before.
struct Teller<'a> {
    script: &'a mut Script,
    call: &'static str,
    told: Vec<Vec<String>>,
}

impl<'a> Teller<'a> {
    fn tell(&mut self, case: &Case) {
        for (index, name) in lent_to(self.call).iter().enumerate() {
            let lines = buffer_lines(name, self.call, case);
            // what an accepted call may have written is made anew, so that a refused one that writes is seen
            if self.told[index] != lines || written_by(self.call).contains(name) {
                lines.iter().for_each(|line| self.script.say(line));
                self.told[index] = lines;
            }
        }
        if WITH_BOARD.contains(&self.call) {
            self.script.say(format!("board {}", board_text(&case.board)));
        }
        self.script.say(format!("call {}{}", self.call, arguments(self.call, case)));
    }
}

fn every_pair(script: &mut Script, call: &'static str, resets: u8, begin: Base) {
    let faults = faults_of(call);
    let mut teller = Teller { script, call, told: vec![Vec::new(); lent_to(call).len()] };
    teller.tell(&base(call, resets, begin));
    for (at, one) in faults.iter().enumerate() {
        for other in &faults[at..] {
            let mut case = base(call, resets, begin);
            one(&mut case);
            other(&mut case);
            teller.tell(&case);
        }
    }
    let mut case = base(call, resets, begin);
    faults.iter().for_each(|fault| fault(&mut case));
    teller.tell(&case);
}

/// The name of a script begins so; the version, field mode, and codes.
const BASES: [(&str, u8, bool, bool); 7] = [
    // [R-1 refusals]
    ("field-faults-", 2, true, false),
    ("codes-faults-", 1, false, true),
    ("field-codes-faults-", 2, true, true),
    // [R-7 refusals]
    ("graphics-faults-", 3, false, false),
    // [R-7 refusals]
    ("field-graphics-faults-", 3, true, false),
    ("codes-graphics-faults-", 3, false, true),
    ("field-codes-graphics-faults-", 3, true, true),
];

pub fn all() -> Vec<Maker> {
    let mut cases: Vec<(&'static str, u8)> = ALONE.iter().map(|&call| (call, 2)).collect();
    for call in WITH_BOARD {
        cases.extend([0, 1, 2, 200].map(|resets| (call, resets)));
    }
    let maker = |name: String, call: &'static str, resets: u8, begin: Base| -> Maker {
        (name, Box::new(move |script: &mut Script, _: &mut Dice| every_pair(script, call, resets, begin)))
    };
    let mut all = Vec::new();
    for &(call, resets) in &cases {
        // [demand takes] [register reserved] [register video] [refusal numbers] [refusal order] [refusal kinds]
        // [refusal zeros]
        let begin = Base { version: 1, field: false, codes: false };
        all.push(maker(format!("faults-{}-{}", call, resets), call, resets, begin));
    }
    // a font file has two versions and no codes, and a list of phrases no page
    // [R-7 font] [R-7 refusals]
    all.push(maker("groups-faults".to_string(), "font_read", 2, Base { version: 2, field: false, codes: false }));
    let of_a_page: Vec<(&'static str, u8)> =
        cases.into_iter().filter(|(call, _)| !["font_read", "phrases_differ"].contains(call)).collect();
    for (name, version, field, codes) in BASES {
        for &(call, resets) in &of_a_page {
            let name = format!("{}{}-{}", name, call, resets);
            all.push(maker(name, call, resets, Base { version, field, codes }));
        }
    }
    all
}
