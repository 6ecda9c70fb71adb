//! The first way: the board as a machine that is clocked. One call of `step` is one character clock.

use crate::board::{Board, Lent, Page, Place};

#[derive(Clone, Copy, PartialEq, Eq, Debug, Default)]
pub struct Signals {
    pub hsync: bool,
    pub vsync: bool,
    pub blank: bool,
    pub cursor: bool,
    pub blink: bool,
}

/// "The stepping call gives the clock's signals [..], address and dots"
#[derive(Clone, Copy, PartialEq, Eq, Debug, Default)]
pub struct Shown {
    pub signals: Signals,
    pub address: u16,
    pub dots: [u8; 12],
}

/// Where in the picture a line stands; `row` counts on past the last row on lines that are not visible.
#[derive(Clone, Copy)]
struct Beam {
    row: u32,
    row_line: u32,
    visible: bool,
    active: bool,
}

/// "00 plain, 01 double width, 10 double width and top half, 11 double width and bottom half"
const PLAIN: u8 = 0b00;
const TOP_HALF: u8 = 0b10;
const BOTTOM_HALF: u8 = 0b11;

pub fn step(board: &mut Board, lent: &Lent) -> Shown {
    let beam = arrive(board, lent.chars, lent.attrs);
    let signals = signals(board, beam);
    let shown = Shown { signals, address: board.place.address, dots: dots(board, beam, signals, lent) };
    leave(board, beam);
    shown
}

/// The state for clock n by n steps whose dots nobody looks at. Column 0 of row 0 loads the address and empties the
/// latch, so that whole frames repeat but for their field count, and n above one frame needs no more than two of them.
pub fn state_at(board: &Board, chars: &[u8], attrs: &[u8], n: u32) -> Board {
    let frame = board.page.frame_clocks();
    let mut at = Board { place: Place::default(), ..*board };
    if n >= frame {
        walk(&mut at, chars, attrs, frame);
        at.place.field = (n / frame % 256) as u8;
    }
    walk(&mut at, chars, attrs, n % frame);
    at
}

fn walk(board: &mut Board, chars: &[u8], attrs: &[u8], clocks: u32) {
    for _ in 0..clocks {
        let beam = arrive(board, chars, attrs);
        leave(board, beam);
    }
}

/// "On column 0 of a visible line the address is loaded." What is fetched may be latched, whether the display is on or not.
fn arrive(board: &mut Board, chars: &[u8], attrs: &[u8]) -> Beam {
    let beam = beam(board);
    drop_what_is_no_latch(board);
    drop_what_is_no_code(board);
    if beam.visible && board.place.clock == 0 {
        load(board, beam, chars);
    }
    if beam.active && !second_half(board) {
        latch(board, attrs);
    }
    beam
}

/// A latch byte handed over without AFLG, or in character mode, counts as 0, and every step leaves 0 there.
fn drop_what_is_no_latch(board: &mut Board) {
    let field_mode = board.page.field_mode();
    for latch in [&mut board.place.latch, &mut board.place.row_latch] {
        if !field_mode || !has_aflg(*latch) {
            *latch = 0;
        }
    }
}

/// Two bits of a code handed over count, and without IR0[7] none: every step leaves what counts.
fn drop_what_is_no_code(board: &mut Board) {
    board.place.row_code = if board.page.rows_have_codes() { board.place.row_code & 0b11 } else { PLAIN };
}

fn double_width(board: &Board) -> bool {
    board.place.row_code != PLAIN
}

/// "the stepper fetches on even columns, shows that address and cursor again on the odd one after"
fn second_half(board: &Board) -> bool {
    double_width(board) && board.place.clock % 2 == 1
}

/// "and moves on after a cell's last column", which is the even one where the line's active clocks end with it.
fn cell_ends(board: &Board) -> bool {
    !double_width(board) || second_half(board) || board.place.clock + 1 == board.page.hact()
}

/// R-4: "With L lines a row, top halves use scan line floor(l/2), bottom halves floor((L+l)/2), for font, cursor, underline
/// and strike alike."
fn scan_line(board: &Board, beam: Beam) -> u32 {
    match board.place.row_code {
        TOP_HALF => beam.row_line / 2,
        BOTTOM_HALF => (board.page.lines_per_row() + beam.row_line) / 2,
        _ => beam.row_line,
    }
}

/// "attributes latched at a cell with AFLG hold until the next such cell"
fn latch(board: &mut Board, attrs: &[u8]) {
    let fetched = attrs[usize::from(board.place.address)];
    if board.page.field_mode() && has_aflg(fetched) {
        board.place.latch = fetched;
    }
}

fn has_aflg(attribute: u8) -> bool {
    attribute & 0x80 != 0
}

/// "Each active clock fetches and then moves on [..]. Other clocks hold the address."
fn leave(board: &mut Board, beam: Beam) {
    if beam.active && cell_ends(board) {
        board.place.address = next_address(&board.page, board.place.address);
    }
    count(&board.page, &mut board.place);
}

fn beam(board: &Board) -> Beam {
    let lines = board.page.lines_per_row();
    let (mut row, mut row_line) = (0, board.place.line);
    while row_line >= lines {
        row_line -= lines;
        row += 1;
    }
    let visible = row < board.page.rows();
    Beam { row, row_line, visible, active: visible && board.place.clock < board.page.hact() }
}

/// "First line of a row: the row table entry if the table is on; else screen start 1 for row 0; else it
/// carries on. That is the row start, and the row's later lines load it again."
fn load(board: &mut Board, beam: Beam, chars: &[u8]) {
    if beam.row_line == 0 {
        if board.page.row_table_on() {
            let (start, upper_bits) = table_entry(&board.page, chars, beam.row);
            board.place.row_start = start;
            // "while IR0[7] is set"
            board.place.row_code = if board.page.rows_have_codes() { upper_bits } else { PLAIN };
        } else if beam.row == 0 {
            board.place.row_start = board.page.start1;
        } else {
            board.place.row_start = board.place.address;
        }
        // R-1: "each scan line of a row starts with what was valid at the end of the previous row"; "At the start of a
        // frame nothing is latched"
        board.place.row_latch = if beam.row == 0 { 0 } else { board.place.latch };
    }
    board.place.address = board.place.row_start;
    board.place.latch = board.place.row_latch;
}

/// "the two character bytes at screen start 2 + 2r, modulo 16,384: low byte, then high byte, of which six
/// bits count", and R-4's two upper bits.
fn table_entry(page: &Page, chars: &[u8], row: u32) -> (u16, u8) {
    let low = (usize::from(page.start2) + 2 * row as usize) % 16384;
    let high = (low + 1) % 16384;
    (u16::from(chars[low]) | (u16::from(chars[high]) & 0x3F) << 8, chars[high] >> 6)
}

/// "after the last buffer address comes the first; otherwise add 1, and 16383 is followed by 0"
fn next_address(page: &Page, address: u16) -> u16 {
    if address == page.last_address() {
        page.first_address()
    } else if address == 16383 {
        0
    } else {
        address + 1
    }
}

/// "A line runs active, front porch, sync, back porch; a frame likewise in lines"
fn signals(board: &Board, beam: Beam) -> Signals {
    let (page, place) = (&board.page, &board.place);
    let hsync_from = page.hact() + page.hfp() as u32;
    let vsync_from = page.visible_lines() + page.vfp();
    Signals {
        hsync: place.clock >= hsync_from && place.clock < hsync_from + page.hsync(),
        vsync: place.line >= vsync_from && place.line < vsync_from + page.vsync(),
        blank: !beam.active || !board.display_on(),
        cursor: beam.active && cursor(page, place, scan_line(board, beam)),
        blink: blink(page, place.field),
    }
}

/// "cursor on, fetched address equal to cursor address, scan line from first to last cursor line (none if
/// first exceeds last), and, if it blinks, the first half of its period by the field counter"
fn cursor(page: &Page, place: &Place, scan_line: u32) -> bool {
    let shape = page.cursor_first() <= scan_line && scan_line <= page.cursor_last();
    let half = page.cursor_fields() / 2;
    let lit = !page.cursor_blinks() || u32::from(place.field) % page.cursor_fields() < half;
    page.cursor_on() && place.address == page.cursor && shape && lit
}

/// "BLINK is high in the fourth quarter of its period"
fn blink(page: &Page, field: u8) -> bool {
    u32::from(field) % page.blink_fields() >= page.blink_fields() / 4 * 3
}

/// "of twelve dot places those past the cell's dots are 0"
fn dots(board: &Board, beam: Beam, signals: Signals, lent: &Lent) -> [u8; 12] {
    let page = &board.page;
    let mut out = [0; 12];
    let places = out.iter_mut().take(page.dots as usize);
    if signals.blank {
        // "While BLANK is high: black if RBLANK is high or BKGND is 0, else gray."
        let level = u8::from(!page.rblank() && page.bkgnd());
        places.for_each(|dot| *dot = level);
        return out;
    }
    let cell = Cell::fetched(board, scan_line(board, beam), signals, lent);
    let mut register = Register::new(cell.loaded(page.dots), double_width(board));
    if second_half(board) {
        // these dots stood in the column before
        for _ in 0..page.dots {
            register.shift();
        }
    }
    for dot in places {
        *dot = if register.shift() { cell.symbol } else { cell.surround };
    }
    out
}

/// A cell's dots on their way out, D0 or the filler before it first. R-4: in a row of double width "each dot comes twice".
struct Register {
    bits: u16,
    twice: bool,
    again: bool,
}

impl Register {
    fn new(bits: u16, twice: bool) -> Register {
        Register { bits, twice, again: false }
    }

    fn shift(&mut self) -> bool {
        let lit = self.bits & 1 == 1;
        self.again = self.twice && !self.again;
        if !self.again {
            self.bits >>= 1;
        }
        lit
    }
}

struct Cell {
    word: u16,
    all_lit: bool,
    symbol: u8,
    surround: u8,
}

impl Cell {
    fn fetched(board: &Board, scan_line: u32, signals: Signals, lent: &Lent) -> Cell {
        let page = &board.page;
        let address = usize::from(board.place.address);
        let sets = has_aflg(lent.attrs[address]);
        // "bit 0 reverse, 1 blank, 2 blink, 3 underline, 4 highlight, 5 strike, 7 AFLG. With AFLG 0 the cell
        // has none." R-7: on the B chip "bit 5 of the attribute byte means graphics and there is no strike"
        let own = if sets { lent.attrs[address] } else { 0 };
        let attr = if page.field_mode() { board.place.latch } else { own };
        let has = |bit: u32| attr >> bit & 1 == 1;
        // "With ACD low the cell that sets them has zero dots, with its own new attributes and lines"
        let suppressed = page.field_mode() && !page.acd() && sets;
        let underline = has(3) && scan_line == page.underline_line();
        let graphics = has(5) && page.is_chip_b();
        let strike = has(5) && !page.is_chip_b() && scan_line == u32::from(page.strike);
        let shape = if graphics { graphics_word } else { font_word };
        // "let E be BKGND xor reverse, and T white if highlighted, else gray"
        let e = page.bkgnd() ^ (has(0) ^ signals.cursor);
        let t = if has(4) { 2 } else { 1 };
        // "E = 0: symbol T, surround black. E = 1: symbol black, surround T."
        let (symbol, surround) = if e { (0, t) } else { (t, 0) };
        // "Non-display is ABLANK, or ABLINK with BLINK"; it "makes the symbol as the surround"
        let non_display = has(1) || has(2) && signals.blink;
        Cell {
            word: if suppressed { 0 } else { shape(lent, lent.chars[address], scan_line) },
            all_lit: underline || strike,
            symbol: if non_display { surround } else { symbol },
            surround,
        }
    }

    /// "D0 first; with 11 or 12 a zero before D0; with 12 a zero after D9"; a lit line lights "all dots of
    /// the cell, fillers too".
    fn loaded(&self, dots: u32) -> u16 {
        if self.all_lit {
            0xFFFF
        } else if dots > 10 {
            self.word << 1
        } else {
            self.word
        }
    }
}

/// "CA7 = 0 gives ten zeros. Otherwise the shift flag chooses a list; the first position in it that equals
/// the scan line gives the font word; none gives zeros."
fn font_word(lent: &Lent, code: u8, scan_line: u32) -> u16 {
    if code & 0x80 == 0 {
        return 0;
    }
    let character = usize::from(code & 0x7F);
    let list = if lent.font.flags[character] != 0 { lent.font.shifted } else { lent.font.unshifted };
    for (position, number) in list.iter().enumerate() {
        if u32::from(number & 0x0F) == scan_line {
            return lent.font.words[9 * character + position] & 0x3FF;
        }
    }
    0
}

/// 002: "For any particular line address value, two of the CA bits are output: CA0, CA2, CA4 or CA6 is output on D0
/// thru D4 and CA1, CA3, CA5 or CA7 is output on D5 thru D9."
fn graphics_word(lent: &Lent, code: u8, scan_line: u32) -> u16 {
    // R-7: "0 for none, 1 to 4 for the pairs CA0/CA1 up to CA6/CA7"; "A version 1 font has no groups and draws graphics
    // as zeros."
    let group = lent.font.groups.get(scan_line as usize).copied().unwrap_or(0);
    if group == 0 {
        return 0;
    }
    let pair = code >> (2 * (group - 1));
    let on_d0_to_d4 = if pair & 1 != 0 { 0x01F } else { 0 };
    let on_d5_to_d9 = if pair & 2 != 0 { 0x3E0 } else { 0 };
    on_d0_to_d4 | on_d5_to_d9
}

/// "The field counter has eight bits and goes from 255 to 0 at the end of a frame, otherwise up by one there"
fn count(page: &Page, place: &mut Place) {
    place.clock += 1;
    if place.clock == page.ht() {
        place.clock = 0;
        place.line += 1;
    }
    if place.line == page.vt() {
        place.line = 0;
        place.field = if place.field == 255 { 0 } else { place.field + 1 };
    }
}
