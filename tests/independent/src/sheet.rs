//! The second way: a line, a row start or a state worked out at once, as on paper. It shares nothing with
//! `machine`: levels are looked up in 000's Table 1 as it is printed, dots are written as text and doubled there, a row
//! start is found by moving row x HACT times, one by one, and what is latched by looking back from the cell.

use std::iter::successors;

use crate::board::{Lent, Page, Place};

/// "a whole line from page, memories, font, line and field count"
pub fn line(page: &Page, lent: &Lent, line: u32, field: u8) -> Vec<u8> {
    if !page.display_switch() {
        return vec![blanked(page); page.line_dots()];
    }
    let row = line / page.lines_per_row();
    let size = row_size(page, lent.chars, row);
    let scan_line = size.scan_line(page, line);
    let attributes = row_attributes(page, lent.chars, lent.attrs, row);
    let cells = row_cells(page, lent.chars, row).into_iter().zip(attributes);
    let shown = cells.flat_map(|(address, attribute)| cell(page, lent, address, attribute, scan_line, field, size));
    // with an odd HACT the last cell of a double width row has no room for its right half
    shown.take(page.line_dots()).collect()
}

/// "00 plain, 01 double width, 10 double width and top half, 11 double width and bottom half"
#[derive(Clone, Copy, PartialEq, Eq)]
enum Size {
    Plain,
    DoubleWidth,
    TopHalf,
    BottomHalf,
}

const SIZES: [Size; 4] = [Size::Plain, Size::DoubleWidth, Size::TopHalf, Size::BottomHalf];

impl Size {
    /// On how many columns a cell is shown: "A double width row shows fetched cell floor(c/2) in column c".
    fn columns(self) -> u32 {
        if self == Size::Plain {
            1
        } else {
            2
        }
    }

    /// "With L lines a row, top halves use scan line floor(l/2), bottom halves floor((L+l)/2)"
    fn scan_line(self, page: &Page, line: u32) -> u32 {
        let all = page.lines_per_row();
        let own = line % all;
        // the lines of a headline, which has twice as many, each shown twice
        let mut headline = (0..all).flat_map(|scan_line| [scan_line, scan_line]);
        match self {
            Size::Plain | Size::DoubleWidth => own,
            Size::TopHalf => headline.nth(own as usize).expect("a line of the top half"),
            Size::BottomHalf => headline.nth((all + own) as usize).expect("a line of the bottom half"),
        }
    }
}

/// "while IR0[7] is set, the two upper bits of a row table entry are the row's code"
fn row_code(page: &Page, chars: &[u8], row: u32) -> u8 {
    if page.rows_have_codes() {
        table_byte(page, chars, row, 1) / 64
    } else {
        0
    }
}

fn row_size(page: &Page, chars: &[u8], row: u32) -> Size {
    SIZES[usize::from(row_code(page, chars, row))]
}

/// The low byte or, with 1, the high byte of a row's entry.
fn table_byte(page: &Page, chars: &[u8], row: u32, which: u32) -> u8 {
    chars[((u32::from(page.start2) + 2 * row + which) % 16384) as usize]
}

/// "First line of a row: the row table entry if the table is on; else screen start 1 for row 0; else it
/// carries on."
pub fn row_start(page: &Page, chars: &[u8], row: u32) -> u16 {
    if page.row_table_on() {
        let at = |which: u32| u16::from(table_byte(page, chars, row, which));
        (at(1) % 64) * 256 + at(0)
    } else {
        moved(page, page.start1, row * page.hact())
    }
}

/// Where a row ends: the address after its last cell.
pub fn row_end(page: &Page, chars: &[u8], row: u32) -> u16 {
    moved(page, row_start(page, chars, row), cells_in_row(page, chars, row))
}

/// "the row's first run of cells [..]: from the row start to the row's end, the last buffer address or
/// 16383, whichever is first met"; R-4: "its first run counts the cells fetched". Where it begins and how many cells it has.
pub fn run(page: &Page, chars: &[u8], row: u32) -> (u16, u32) {
    let first = row_start(page, chars, row);
    let mut count = 1;
    let mut address = first;
    while count < cells_in_row(page, chars, row) && address != page.last_address() && address != 16383 {
        address += 1;
        count += 1;
    }
    (first, count)
}

/// "The addresses of all cells that a row fetches, column by column, wraps included"
pub fn row_cells(page: &Page, chars: &[u8], row: u32) -> Vec<u16> {
    cells_from(page, row_start(page, chars, row), cells_in_row(page, chars, row))
}

/// Some of a row's cells does not follow the one before it.
pub fn wraps(cells: &[u16]) -> bool {
    cells.windows(2).any(|pair| pair[1] != pair[0] + 1)
}

/// "the cells fetched, which are half of HACT rounded up"
fn cells_in_row(page: &Page, chars: &[u8], row: u32) -> u32 {
    match row_size(page, chars, row).columns() {
        1 => page.hact(),
        _ => page.hact() / 2 + page.hact() % 2,
    }
}

pub fn cells_from(page: &Page, first: u16, count: u32) -> Vec<u16> {
    successors(Some(first), |&address| Some(moved(page, address, 1))).take(count as usize).collect()
}

/// All cells that the rows before this one show, in order.
fn cells_before(page: &Page, chars: &[u8], row: u32) -> Vec<u16> {
    if page.row_table_on() {
        (0..row).flat_map(|row| row_cells(page, chars, row)).collect()
    } else {
        cells_from(page, page.start1, row * page.hact())
    }
}

/// Looks back from the last of these cells for one with AFLG.
fn last_set(attrs: &[u8], cells: &[u16]) -> Option<u8> {
    cells.iter().rev().map(|&cell| attrs[usize::from(cell)]).find(|&attribute| attribute >= 128)
}

/// "what was valid at the end of the previous row"; "At the start of a frame nothing is latched".
fn row_latch(page: &Page, chars: &[u8], attrs: &[u8], row: u32) -> u8 {
    if page.field_mode() {
        last_set(attrs, &cells_before(page, chars, row)).unwrap_or(0)
    } else {
        0
    }
}

/// The attribute byte that holds for each cell of a row: in character mode its own, in field mode that of the last
/// cell with AFLG, "until the next such cell, across rows".
fn row_attributes(page: &Page, chars: &[u8], attrs: &[u8], row: u32) -> Vec<u8> {
    let cells = row_cells(page, chars, row);
    if !page.field_mode() {
        return cells.iter().map(|&cell| attrs[usize::from(cell)]).collect();
    }
    let before = row_latch(page, chars, attrs, row);
    (0..cells.len()).map(|column| last_set(attrs, &cells[..=column]).unwrap_or(before)).collect()
}

/// What clock n shows.
#[derive(PartialEq, Eq, Debug)]
pub struct Moment {
    /// As it stands before the step.
    pub place: Place,
    /// HSYNC, VSYNC, BLANK, CURSOR, BLINK
    pub signals: [bool; 5],
    pub address: u16,
    pub dots: Vec<u8>,
}

pub fn moment(page: &Page, display_on: bool, lent: &Lent, n: u32) -> Moment {
    let place = place_at(page, lent.chars, lent.attrs, n);
    let across = part(place.clock, [page.hact(), page.hfp() as u32, page.hsync(), page.hbp() as u32]);
    let down = part(place.line, [page.visible_lines(), page.vfp(), page.vsync(), page.vbp()]);
    let active = (across, down) == (0, 0);
    let row = place.line / page.lines_per_row();
    let size = if active { row_size(page, lent.chars, row) } else { Size::Plain };
    let scan_line = size.scan_line(page, place.line);
    let loaded = active && place.clock == 0;
    let address = if loaded { row_start(page, lent.chars, row) } else { place.address };
    let shown = active && display_on;
    let cursor = active && cursor_here(page, address, scan_line, place.field);
    Moment {
        place,
        signals: [across == 2, down == 2, !shown, cursor, blink_high(page, place.field)],
        address,
        dots: if shown {
            let fetched = (place.clock / size.columns()) as usize;
            let attribute = row_attributes(page, lent.chars, lent.attrs, row)[fetched];
            let mut dots = cell(page, lent, address, attribute, scan_line, place.field, size);
            // "left half in even columns"
            let column = place.clock % size.columns();
            dots.drain(..(column * page.dots) as usize);
            dots.truncate(page.dots as usize);
            dots
        } else {
            vec![blanked(page); page.dots as usize]
        },
    }
}

/// "A line runs active, front porch, sync, back porch; a frame likewise in lines": in which of the four a
/// count stands.
fn part(count: u32, lengths: [u32; 4]) -> usize {
    let mut end = 0;
    let ends = lengths.map(|length| {
        end += length;
        end
    });
    ends.iter().position(|&end| count < end).expect("the four parts are the whole")
}

/// The place for clock n "from n's quotients and remainders by frame and line".
pub fn place_at(page: &Page, chars: &[u8], attrs: &[u8], n: u32) -> Place {
    let frame = n / page.frame_clocks();
    let line = n % page.frame_clocks() / page.ht();
    let clock = n % page.ht();
    let counts = Place { field: (frame % 256) as u8, line, clock, ..Place::default() };
    match passed(page, frame, line, clock) {
        Some((row, count)) => held(page, chars, attrs, row, count, counts),
        None => counts,
    }
}

/// The row of the last visible line on which an active clock has passed, and how many of them; none before there was one.
fn passed(page: &Page, frame: u32, line: u32, clock: u32) -> Option<(u32, u32)> {
    let visible = page.visible_lines();
    let (last, count) = if line < visible && clock > 0 {
        (line, clock.min(page.hact()))
    } else if line > 0 {
        (line.min(visible) - 1, page.hact())
    } else if frame > 0 {
        (visible - 1, page.hact())
    } else {
        return None;
    };
    Some((last / page.lines_per_row(), count))
}

/// What the beam holds after so many columns of a row, and what the row began with. The cell of its next column is
/// fetched already where that is a right half.
fn held(page: &Page, chars: &[u8], attrs: &[u8], row: u32, columns: u32, counts: Place) -> Place {
    let row_start = row_start(page, chars, row);
    let row_latch = row_latch(page, chars, attrs, row);
    let row_code = row_code(page, chars, row);
    let each = row_size(page, chars, row).columns();
    let fetched = (columns + each - 1) / each;
    let left = if columns == page.hact() { fetched } else { columns / each };
    let latch =
        if page.field_mode() { last_set(attrs, &cells_from(page, row_start, fetched)).unwrap_or(row_latch) } else { 0 };
    Place { address: moved(page, row_start, left), latch, row_start, row_latch, row_code, ..counts }
}

/// "after the last buffer address comes the first; otherwise add 1, and 16383 is followed by 0"
fn moved(page: &Page, from: u16, times: u32) -> u16 {
    let mut address = from;
    for _ in 0..times {
        address = match address {
            last if last == page.last_address() => page.first_address(),
            other => (other + 1) % 16384,
        };
    }
    address
}

/// 000 Table 1 where BLANK is 0: BKGND, REVERSE, AHILT, non-display; symbol, surround.
const TABLE_1: [([u8; 4], [char; 2]); 16] = [
    ([0, 0, 0, 0], ['G', 'B']),
    ([0, 0, 0, 1], ['B', 'B']),
    ([0, 0, 1, 0], ['W', 'B']),
    ([0, 0, 1, 1], ['B', 'B']),
    ([0, 1, 0, 0], ['B', 'G']),
    ([0, 1, 0, 1], ['G', 'G']),
    ([0, 1, 1, 0], ['B', 'W']),
    ([0, 1, 1, 1], ['W', 'W']),
    ([1, 0, 0, 0], ['B', 'G']),
    ([1, 0, 0, 1], ['G', 'G']),
    ([1, 0, 1, 0], ['B', 'W']),
    ([1, 0, 1, 1], ['W', 'W']),
    ([1, 1, 0, 0], ['G', 'B']),
    ([1, 1, 0, 1], ['B', 'B']),
    ([1, 1, 1, 0], ['W', 'B']),
    ([1, 1, 1, 1], ['B', 'B']),
];

/// "Levels are 0, 1, 2."
fn level(letter: char) -> u8 {
    "BGW".find(letter).expect("Table 1 has three letters") as u8
}

/// 000 Table 1 where BLANK is 1.
fn blanked(page: &Page) -> u8 {
    level(match (page.rblank(), page.bkgnd()) {
        (false, false) => 'B',
        (false, true) => 'G',
        (true, _) => 'B',
    })
}

/// The dots of a cell for which this attribute byte holds, in all its columns.
fn cell(page: &Page, lent: &Lent, address: u16, attribute: u8, scan_line: u32, field: u8, size: Size) -> Vec<u8> {
    let attribute = Attribute::of(attribute);
    let cursor = cursor_here(page, address, scan_line, field);
    let hidden = attribute.blank == 1 || attribute.blink == 1 && blink_high(page, field);
    let key = [u8::from(page.bkgnd()), attribute.reverse ^ u8::from(cursor), attribute.highlight, u8::from(hidden)];
    let (_, [symbol, surround]) = TABLE_1.iter().find(|(inputs, _)| *inputs == key).expect("Table 1 has every row");
    let underline = attribute.underline == 1 && scan_line == page.underline_line();
    // "bit 5 of the attribute byte means graphics and there is no strike"
    let (strike, graphics) = match (attribute.bit_5, page.is_chip_b()) {
        (0, _) => (false, false),
        (_, true) => (false, true),
        (_, false) => (scan_line == u32::from(page.strike), false),
    };
    let code = lent.chars[usize::from(address)];
    let pattern = if underline || strike {
        "1".repeat(page.dots as usize)
    } else if is_control(page, lent.attrs[usize::from(address)]) {
        "0".repeat(page.dots as usize)
    } else if graphics {
        pattern(&ten_graphics_dots(lent.font.groups, code, scan_line), page.dots as usize)
    } else {
        pattern(&ten_dots(lent, code, scan_line), page.dots as usize)
    };
    // "each dot comes twice"
    let shown = pattern.chars().flat_map(|dot| [dot, dot].into_iter().take(size.columns() as usize));
    shown.map(|dot| level(if dot == '1' { *symbol } else { *surround })).collect()
}

/// 000: "if ACD = 0, the first character in each new attribute field (the attribute control character) will be
/// suppressed and only the attributes will be displayed."
fn is_control(page: &Page, own: u8) -> bool {
    match (page.field_mode(), page.acd()) {
        (true, false) => own >= 128,
        (true, true) | (false, _) => false,
    }
}

/// "BLINK is high in the fourth quarter of its period"
fn blink_high(page: &Page, field: u8) -> bool {
    u32::from(field) * 4 / page.blink_fields() % 4 == 3
}

/// "Attribute byte: bit 0 reverse, 1 blank, 2 blink, 3 underline, 4 highlight, 5 strike, 7 AFLG." What bit 5 means goes
/// by the chip.
#[derive(Default)]
struct Attribute {
    reverse: u8,
    blank: u8,
    blink: u8,
    underline: u8,
    highlight: u8,
    bit_5: u8,
}

impl Attribute {
    fn of(byte: u8) -> Attribute {
        if byte < 128 {
            return Attribute::default();
        }
        Attribute {
            reverse: byte % 2,
            blank: byte / 2 % 2,
            blink: byte / 4 % 2,
            underline: byte / 8 % 2,
            highlight: byte / 16 % 2,
            bit_5: byte / 32 % 2,
        }
    }
}

/// "The same cell shown twice has two cursors": only the address tells.
fn cursor_here(page: &Page, address: u16, scan_line: u32, field: u8) -> bool {
    let lines = page.cursor_first()..=page.cursor_last();
    let first_half = u32::from(field) * 2 / page.cursor_fields() % 2 == 0;
    page.cursor_on() && address == page.cursor && lines.contains(&scan_line) && (first_half || !page.cursor_blinks())
}

/// D0 to D9 of a character on a scan line, as ten letters 0 and 1.
fn ten_dots(lent: &Lent, code: u8, scan_line: u32) -> String {
    let none = "0".repeat(10);
    if code < 128 {
        return none;
    }
    let character = usize::from(code) - 128;
    let list = if lent.font.flags[character] == 0 { lent.font.unshifted } else { lent.font.shifted };
    match list.iter().position(|number| u32::from(number % 16) == scan_line) {
        Some(position) => {
            let word = lent.font.words[character * 9 + position] % 1024;
            format!("{:010b}", word).chars().rev().collect()
        }
        None => none,
    }
}

/// 002: "When CA0 is output on D0 thru D4, CA1 is output on D5 thru D9 and likewise for CA2-CA3, CA4-CA5 and CA6-CA7."
const GROUPS: [Option<(usize, usize)>; 5] = [None, Some((0, 1)), Some((2, 3)), Some((4, 5)), Some((6, 7))];

/// D0 to D9 in graphics mode; without groups all are zeros.
fn ten_graphics_dots(groups: &[u8], code: u8, scan_line: u32) -> String {
    let ca: Vec<char> = format!("{:08b}", code).chars().rev().collect();
    match groups.get(scan_line as usize).and_then(|&group| GROUPS[usize::from(group)]) {
        Some((left, right)) => [[ca[left]; 5], [ca[right]; 5]].concat().into_iter().collect(),
        None => "0".repeat(10),
    }
}

/// "six to twelve a cell, D0 first; with 11 or 12 a zero before D0; with 12 a zero after D9"
fn pattern(ten: &str, dots: usize) -> String {
    match dots {
        11 => format!("0{}", ten),
        12 => format!("0{}0", ten),
        fewer => ten[..fewer].to_string(),
    }
}
