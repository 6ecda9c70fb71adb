//! 01 "Refusal numbers" and what 02 makes of them: what is wrong with what a call was handed. A list of faults has no order of its
//! own; `first` applies 01's.

use crate::board::{Board, Font, Page, FONT_FLAGS, FONT_GROUPS, FONT_LIST, FONT_WORDS, MEMORY};

/// What a call answers: a refusal number, 0 where all was done, and the number beside it.
#[derive(Clone, Copy, PartialEq, Eq, Debug, Default)]
pub struct Refusal {
    pub number: u32,
    pub beside: u32,
}

impl Refusal {
    pub const NONE: Refusal = Refusal::plain(0);

    /// One that gives no number beside it.
    pub const fn plain(number: u32) -> Refusal {
        Refusal { number, beside: 0 }
    }

    pub fn refused(self) -> bool {
        self.number != 0
    }
}

/// A refusal and whether its reason holds.
pub type Fault = (Refusal, bool);

/// "Lowest number first, except that 12 precedes 4"; R-2: "5 goes; 13, 14 and 15 take its place in that order"; R-5's numbers
/// come "after the page's own", 19 before 17 and 18; R-6: "the page's and row's own, then 20"
const ORDER: [u32; 18] = [1, 2, 3, 12, 4, 13, 14, 15, 6, 7, 8, 9, 10, 16, 19, 17, 18, 20];

pub fn first(faults: &[Fault]) -> Refusal {
    let holding = |number: u32| faults.iter().find(|(refusal, holds)| *holds && refusal.number == number);
    ORDER.iter().find_map(|&number| holding(number)).map_or(Refusal::NONE, |&(refusal, _)| refusal)
}

pub fn fault(number: u32, holds: bool) -> Fault {
    (Refusal::plain(number), holds)
}

/// "1: version byte missing or not 1; 2: length field or bytes present wrong"; R-7: "1 and 2 follow the new versions
/// and lengths"
pub fn file(file: &[u8], length_of: fn(u8) -> Option<u32>) -> Vec<Fault> {
    let length = file.first().and_then(|&version| length_of(version));
    let field = file.get(1..5).map(|b| u32::from_be_bytes([b[0], b[1], b[2], b[3]]));
    let present = length.map_or(false, |length| file.len() == 5 + length as usize);
    vec![fault(1, length.is_none()), fault(2, field != length || !present)]
}

/// "3: a lent memory or font part of wrong size"
pub fn memory(lent: &[u8]) -> Fault {
    fault(3, lent.len() != MEMORY)
}

pub fn font(font: &Font) -> Vec<Fault> {
    vec![
        fault(3, font.words.len() != FONT_WORDS),
        fault(3, font.flags.len() != FONT_FLAGS),
        fault(3, font.unshifted.len() != FONT_LIST),
        fault(3, font.shifted.len() != FONT_LIST),
        fault(3, ![0, FONT_GROUPS].contains(&font.groups.len())),
    ]
}

/// "12 also covers a chip byte above 1 and a group above 4"
pub fn groups(groups: &[u8]) -> Fault {
    fault(12, groups.iter().any(|&group| group > 4))
}

/// "12: a start or cursor address above 16383, switches 4 to 7, or strike line above 15"; R-1: "in a version 2 file
/// 12 covers switches 6 and 7 only"; R-7: "also [..] a chip byte above 1". All but the strike line.
pub fn addresses(page: &Page) -> Vec<Fault> {
    let no_switches = if page.known_version() == 1 { 0xF0 } else { 0xC0 };
    vec![
        fault(12, page.start1 > 16383),
        fault(12, page.cursor > 16383),
        fault(12, page.start2 > 16383),
        fault(12, page.switches & no_switches != 0),
        fault(12, page.known_version() == 3 && page.chip > 1),
    ]
}

pub fn strike(line: u8) -> Fault {
    fault(12, line > 15)
}

/// "6: dots not 6 to 12"
pub fn dots(dots: u32) -> Fault {
    fault(6, !(6..=12).contains(&dots))
}

/// R-2: "a back porch code of 0; a line too short for its active, sync and back porch clocks; a front porch of 0 or 1. The
/// second and third also give by how many clocks the front porch misses 2, exactly."
fn porches(page: &Page) -> Vec<Fault> {
    let taken = page.hact() as i32 + page.hsync() as i32 + page.hbp();
    let line = page.ht() as i32;
    let missing = |number: u32| Refusal { number, beside: (taken + 2 - line).max(0) as u32 };
    vec![
        fault(13, page.hbp_code() == 0),
        (missing(14), line < taken),
        (missing(15), line == taken || line == taken + 1),
    ]
}

/// What a page alone can be refused for: 12, 4, 13, 14, 15, 6.
pub fn page(page: &Page) -> Vec<Fault> {
    let mut faults = addresses(page);
    faults.push(strike(page.strike));
    // "4 now means interlace, or IR0[7] without the row table"
    faults.push(fault(4, page.interlace() || page.rows_have_codes() && !page.row_table_on()));
    faults.extend(porches(page));
    faults.push(dots(page.dots));
    faults
}

/// "7: [..] IR pointer out of range": 003 allows 0 to 14.
pub fn pointer(board: &Board) -> Fault {
    fault(7, board.pointer > 14)
}

/// "7: [..] a state's line, clock in the line, address, row start [..] out of range"; of latches and the row's code nothing is.
pub fn place(board: &Board) -> Vec<Fault> {
    let (page, place) = (&board.page, &board.place);
    vec![
        fault(7, place.line >= page.vt()),
        fault(7, place.clock >= page.ht()),
        fault(7, place.address > 16383),
        fault(7, place.row_start > 16383),
    ]
}
