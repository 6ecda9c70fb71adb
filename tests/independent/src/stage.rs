//! What a drawing script sets up before its frame, and the calls that it makes after it.

use crate::board::{Board, Page};
use crate::dice::{phrases_about, Dice};
use crate::make::Script;
use crate::script::hex;
use crate::sheet;

/// Field counts at which blinking things change, and some past 255.
const FIELDS: [u32; 22] =
    [0, 1, 15, 16, 31, 32, 47, 48, 63, 64, 95, 96, 127, 128, 191, 192, 223, 224, 255, 256, 257, 300];

/// Writes these row starts as a row table at screen start 2, with upper bits at random: they are codes, or do not count.
pub fn table(script: &mut Script, dice: &mut Dice, page: &Page, chars: &mut [u8], starts: &[u16]) {
    let rows: Vec<(u16, u8)> = starts.iter().map(|&start| (start, dice.between(0, 3) as u8)).collect();
    coded_table(script, page, chars, &rows);
}

/// Writes these row starts and codes.
pub fn coded_table(script: &mut Script, page: &Page, chars: &mut [u8], rows: &[(u16, u8)]) {
    for (row, (start, code)) in rows.iter().enumerate() {
        let entry = [(start % 256) as u8, (start / 256) as u8 | code << 6];
        for (byte, value) in entry.iter().enumerate() {
            let at = (usize::from(page.start2) + 2 * row + byte) % 16384;
            script.say(format!("set chars {} {}", at, hex(&[*value])));
            chars[at] = *value;
        }
    }
}

/// The row starts of a sheet, from screen start 1 on, whatever table the page has.
pub fn following(page: &Page) -> Vec<u16> {
    let mut plain = *page;
    plain.irs[2] &= 0x7F;
    (0..page.rows()).map(|row| sheet::row_start(&plain, &[], row)).collect()
}

/// Puts the cursor on a cell that is shown.
pub fn cursor_in_sight(dice: &mut Dice, page: &mut Page, chars: &[u8]) {
    let row = dice.between(0, page.rows() - 1);
    page.cursor = dice.pick(&sheet::row_cells(page, chars, row));
}

/// Attributes beside the character memory that is there; then font, numbers and board. AFLG stands in every second
/// cell or, in some pages in field mode, in a few that are shown.
pub fn set_up(script: &mut Script, dice: &mut Dice, page: &Page, chars: &[u8], resets: u8) {
    script.attrs(dice);
    if page.field_mode() && dice.one_in(2) {
        let few = dice.pick(&[0, 1, 1, 2, 3, 6]);
        let set: Vec<(u16, u8)> = (0..few).map(|_| (any_cell(dice, page, chars), attribute(dice))).collect();
        script.set_only(&set);
    }
    prepare(script, dice, page, resets);
}

/// A cell that is shown, often at an end of its row.
fn any_cell(dice: &mut Dice, page: &Page, chars: &[u8]) -> u16 {
    let cells = sheet::row_cells(page, chars, dice.between(0, page.rows() - 1));
    let any = dice.between(0, cells.len() as u32 - 1) as usize;
    cells[dice.pick(&[any, any, 0, cells.len() - 1])]
}

/// Attributes for a cell to set, most of which leave something to be seen.
pub fn attribute(dice: &mut Dice) -> u8 {
    dice.byte() & dice.pick(&[0xFF, 0xFD, 0xFD, 0xF9])
}

/// Font and numbers beside the memories that are there; then a board of this power state. An inactive board draws
/// with its display off, so its numbers say that it is off.
pub fn prepare(script: &mut Script, dice: &mut Dice, page: &Page, resets: u8) {
    script.font(dice);
    if resets < 2 {
        script.numbers(&Page { switches: page.switches & !1, ..*page });
        script.board(&Board { resets, ..Board::of_page(*page) });
    } else {
        script.numbers(page);
        script.say("call page_check");
        script.say("call board_of");
    }
}

/// A whole frame, then runs, cells, lines, pictures, states and steps here and there. Where the board then stands its page is
/// saved as numbers, and drawn once more from these.
pub fn show(script: &mut Script, dice: &mut Dice, page: &Page) {
    let field = dice.pick(&FIELDS);
    script.frame_of(page, field);
    for _ in 0..3 {
        script.say(format!("call row_run {}", dice.between(0, page.rows())));
    }
    cells(script, dice, page);
    lines(script, dice, page);
    pictures(script, dice, page);
    states(script, dice, page);
    script.say(format!("fill numbers 32 {}", dice.seed()));
    script.say("call numbers_of");
    script.say(format!("call picture_draw {}", dice.byte()));
}

/// Lines into buffers that are just long enough, longer, and too short.
pub fn lines(script: &mut Script, dice: &mut Dice, page: &Page) {
    for extra in [0, dice.between(1, 40) as i32, -1] {
        let room = page.line_dots() as i32 + extra;
        script.say(format!("fill out {} {}", room, dice.seed()));
        let line = dice.between(0, page.visible_lines() - 1);
        script.say(format!("call line_draw {} {}", line, dice.byte()));
    }
}

/// Pictures into buffers that are just long enough, longer, and too short.
pub fn pictures(script: &mut Script, dice: &mut Dice, page: &Page) {
    for extra in [-1, 0, dice.between(1, 3000) as i32] {
        script.say(format!("fill out {} {}", page.picture_dots() as i32 + extra, dice.seed()));
        script.say(format!("call picture_draw {}", dice.byte()));
    }
}

/// The cells of rows, into buffers that are too short, just long enough, and longer.
pub fn cells(script: &mut Script, dice: &mut Dice, page: &Page) {
    for room in [dice.between(0, 255), 256, dice.between(257, 600)] {
        script.say(format!("fill cells {} {}", room, dice.seed()));
        script.say(format!("call row_cells {}", dice.between(0, page.rows())));
    }
}

/// Run and cells of every row, and of the row after the last.
pub fn rows(script: &mut Script, dice: &mut Dice, page: &Page) {
    script.say(format!("fill cells {} {}", dice.between(256, 300), dice.seed()));
    for row in 0..=page.rows() {
        script.say(format!("call row_run {}", row));
        script.say(format!("call row_cells {}", row));
    }
}

/// The board of a page, a frame of it, and its rows.
pub fn framed(script: &mut Script, dice: &mut Dice, page: &Page) {
    script.numbers(page);
    script.say("call board_of");
    script.frame(page);
    rows(script, dice, page);
}

/// From a board of this power state: a frame, then steps between which the display goes on and off, and a line clock by clock.
pub fn on_and_off(script: &mut Script, dice: &mut Dice, page: &Page, resets: u8) {
    script.board(&Board { resets, ..Board::of_page(*page) });
    script.frame(page);
    for _ in 0..12 {
        script.say(format!("call write 1 {}", dice.pick(&[0x28, 0x29, 0x29])));
        script.say(format!("call step {}", dice.between(1, page.frame_clocks() / 8)));
    }
    script.say("every 1");
    script.say(format!("call step {}", page.ht()));
    script.say("every 0");
}

/// States within the first frames and far away, and steps from there.
pub fn states(script: &mut Script, dice: &mut Dice, page: &Page) {
    let frame = page.frame_clocks();
    let row = page.lines_per_row() * page.ht();
    let edges = [frame - 1, row * dice.between(1, page.rows()) - 1, page.hact() - 1, frame + page.ht() - 1];
    for n in [dice.pick(&edges), dice.between(0, 2 * frame), dice.between(0, u32::MAX)] {
        script.say(format!("call state_at {}", n));
        script.say(format!("call step {}", dice.between(1, 3 * page.hact())));
    }
}

/// Any row or, of a page in which some wrap, often one of those.
fn some_row(dice: &mut Dice, page: &Page, chars: &[u8]) -> u32 {
    let wraps = |row: &u32| sheet::wraps(&sheet::row_cells(page, chars, *row));
    let wrapped: Vec<u32> = (0..page.rows()).filter(wraps).collect();
    if wrapped.is_empty() || dice.one_in(2) {
        dice.between(0, page.rows() - 1)
    } else {
        dice.pick(&wrapped)
    }
}

/// Lists of phrases about a row's cells: the phrase of that row and of any other, and two of the list that differ.
pub fn index(script: &mut Script, dice: &mut Dice, page: &Page, chars: &[u8]) {
    for _ in 0..3 {
        let row = some_row(dice, page, chars);
        let list = phrases_about(dice, &sheet::row_cells(page, chars, row));
        script.phrases(&list);
        script.say(format!("call phrase_of_row {}", row));
        script.say(format!("call phrase_of_row {}", dice.between(0, page.rows())));
        script.say("call phrases_differ");
    }
}
