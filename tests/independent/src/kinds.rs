//! The random scripts, one kind after another.

use crate::board::{Board, Page, MEMORY};
use crate::dice::{any_place, groups, in_buffer, page, phrases_about, place_cells, some_with_codes, Dice, Shape};
use crate::files::{font_head, page_head, FONT_FILE, GROUPS_FONT_FILE, PAGE_FILE};
use crate::make::Script;
use crate::script::hex;
use crate::stage::{cells, cursor_in_sight, following, index, lines, pictures, set_up, show, states, table};

pub type Kind = fn(&mut Script, &mut Dice);

pub const KINDS: [(&str, Kind); 15] = [
    ("sheet", sheet),
    ("catalogue", catalogue),
    // [register vsync] [register kept] [clock zero]
    ("boards", boards),
    ("registers", by_registers),
    ("sheet", sheet),
    ("wide", wide),
    // [file page]
    ("files", files),
    ("catalogue", catalogue),
    // [register at-once]
    ("inactive", inactive),
    ("tall", tall),
    // [board memory]
    ("sizes", sizes),
    // [register at-once] [fetch start]
    ("live", live),
    ("screen", screen),
    ("follow", follow),
    ("full", full),
];

fn drawn(script: &mut Script, dice: &mut Dice, shape: Shape, resets: u8) {
    let mut page = page(dice, shape);
    page = some_with_codes(dice, 4, page);
    place_cells(dice, &mut page);
    page.switches &= !u8::from(dice.one_in(10));
    let chars = script.chars(dice);
    cursor_in_sight(dice, &mut page, &chars);
    set_up(script, dice, &page, &chars, resets);
    index(script, dice, &page, &chars);
    show(script, dice, &page);
}

pub fn sheet(script: &mut Script, dice: &mut Dice) {
    let shape = Shape::small(dice);
    drawn(script, dice, shape, 2);
}

fn inactive(script: &mut Script, dice: &mut Dice) {
    let shape = Shape::small(dice);
    let resets = dice.pick(&[0, 1, 1, 3, 200, 255]);
    drawn(script, dice, shape, resets);
}

/// As large as a terminal's screen.
pub fn screen(script: &mut Script, dice: &mut Dice) {
    let (hact, rows) = (dice.between(40, 132), dice.between(12, 28));
    let shape = Shape { hact, rows, lines: dice.between(8, 14), dots: dice.between(6, 12) };
    drawn(script, dice, shape, 2);
}

pub fn wide(script: &mut Script, dice: &mut Dice) {
    let hact = dice.pick(&[80, 132, 200, 255, 256]);
    let shape = Shape { hact, rows: dice.between(1, 3), lines: dice.between(1, 4), dots: dice.between(6, 12) };
    drawn(script, dice, shape, 2);
}

pub fn tall(script: &mut Script, dice: &mut Dice) {
    let rows = dice.pick(&[24, 60, 127, 128]);
    let shape = Shape { hact: dice.between(1, 4), rows, lines: dice.between(1, 3), dots: dice.between(6, 12) };
    drawn(script, dice, shape, 2);
}

/// Rows that begin anywhere, at one another's cells, and at the ends of buffer and memory.
pub fn catalogue(script: &mut Script, dice: &mut Dice) {
    let shape = Shape::small(dice);
    let mut page = page(dice, shape);
    page = some_with_codes(dice, 2, page);
    place_cells(dice, &mut page);
    page.irs[2] |= 0x80;
    page.start2 = dice.pick(&[page.start2, page.start2, 16383, 16380, page.start1]);
    let mut chars = script.chars(dice);
    let phrase = dice.between(0, 16383) as u16;
    let back = dice.between(0, page.hact()) as u16;
    let ends = [phrase, page.last_address().saturating_sub(back), 16383 - back, page.first_address(), phrase];
    let starts: Vec<u16> = (0..page.rows()).map(|_| dice.pick(&ends)).collect();
    if !dice.one_in(4) {
        table(script, dice, &page, &mut chars, &starts);
    }
    cursor_in_sight(dice, &mut page, &chars);
    set_up(script, dice, &page, &chars, 2);
    index(script, dice, &page, &chars);
    show(script, dice, &page);
}

/// Rows whose entries follow one another, as a sheet's do; sometimes one does not.
fn follow(script: &mut Script, dice: &mut Dice) {
    let shape = Shape::small(dice);
    let mut page = page(dice, shape);
    place_cells(dice, &mut page);
    let mut starts = following(&page);
    if dice.one_in(4) {
        let row = dice.between(0, page.rows() - 1) as usize;
        starts[row] ^= 1 << dice.between(0, 13);
    }
    page.irs[2] |= 0x80;
    page.start1 = dice.between(0, 16383) as u16;
    page.start2 = dice.pick(&[page.start2, page.start2, 16383, 16380, starts[0]]);
    let mut chars = script.chars(dice);
    table(script, dice, &page, &mut chars, &starts);
    cursor_in_sight(dice, &mut page, &chars);
    set_up(script, dice, &page, &chars, 2);
    index(script, dice, &page, &chars);
    show(script, dice, &page);
}

/// Sheets that leave as many cells as their tables have, or a few more or less, in one stretch or in several.
fn full(script: &mut Script, dice: &mut Dice) {
    let chars = script.chars(dice);
    for turn in 0..4 {
        let rows = dice.between(64, 128);
        let hact = 16384 / rows - dice.pick(&[1, 2, 2, 2, 3]);
        let shape = Shape { hact, rows, lines: 1, dots: dice.between(6, 8) };
        let (low, any) = (dice.between(0, 300) as u16, dice.between(0, 16383) as u16);
        // from behind the buffer's last address all of memory is shown before the buffer begins again
        let (last, behind) = dice.pick(&[(16383, 0), (16383, 0), (1023, 1024), (8191, 8192)]);
        let (first, start1) = (dice.pick(&[0, 0, low]), dice.pick(&[behind, behind, low, any]));
        let page = in_buffer(page(dice, shape), first, last, start1);
        if turn == 0 {
            set_up(script, dice, &page, &chars, 2);
            script.moves(&page);
        }
        script.numbers(&page);
        script.say("call to_table");
        script.say("call to_sheet");
    }
}

/// Boards of any bytes: mended ones with a few bytes disturbed, and some of pure chance.
fn boards(script: &mut Script, dice: &mut Dice) {
    script.chars(dice);
    script.attrs(dice);
    script.font(dice);
    script.phrases(&phrases_about(dice, &[0, 16383]));
    for _ in 0..30 {
        let board = any_board(dice);
        script.board(&board);
        script.say(format!("fill numbers 32 {}", dice.seed()));
        script.say("call numbers_of");
        script.say(format!("call phrase_of_row {}", dice.between(0, 3)));
        script.say("call to_table");
        script.say("call to_sheet");
        script.say(format!("call read {}", dice.between(0, 9)));
        script.say(format!("call write {} {}", dice.between(0, 9), dice.byte()));
        script.say("board");
        script.say(format!("call write 1 {}", dice.pick(&[0, 0, 0x1E, 0x29, 0x28, 0x31, 0x30, 0x3D, 0x1F, 0x2A])));
        script.say("board");
        script.say(format!("call state_at {}", dice.between(0, u32::MAX)));
        script.say("board");
        script.say(format!("call step {}", dice.between(1, 40)));
        script.say("board");
        let (dots, strike) = (dice.pick(&[5, 6, 8, 12, 13]), dice.pick(&[0, 9, 15, 16]));
        script.say(format!(
            "call set_video {} {} {} {}",
            dots,
            strike,
            dice.pick(&[0, 1, 128]),
            dice.pick(&[0, 1, 255])
        ));
        script.say("call step 3");
    }
}

fn any_board(dice: &mut Dice) -> Board {
    let shape = Shape::small(dice);
    let mut page = page(dice, shape);
    page = some_with_codes(dice, 2, page);
    place_cells(dice, &mut page);
    let place = any_place(dice, &page);
    let mut board = Board { page, place, pointer: dice.between(0, 14) as u8, resets: dice.pick(&[0, 1, 2, 200, 255]) };
    if dice.one_in(2) {
        // in sight, and often at a line's beginning
        board.place.clock = dice.pick(&[0, 0, 1, page.hact() / 2, page.hact()]);
        board.place.line = dice.between(0, page.visible_lines() - 1);
    }
    for _ in 0..dice.pick(&[0, 0, 0, 1, 1, 2, 60]) {
        disturb(dice, &mut board);
    }
    board
}

fn disturb(dice: &mut Dice, board: &mut Board) {
    let (wide, address) = (dice.pick(&[0, 1, 5, 13, 255, 256, 2153, u32::MAX]), dice.pick(&[0, 16383, 16384, 65535]));
    match dice.between(0, 17) {
        0 => board.page.start1 = address,
        1 => board.page.cursor = address,
        2 => board.page.start2 = address,
        3 => board.page.switches = dice.byte(),
        4 => board.page.dots = wide,
        5 => board.page.strike = dice.pick(&[15, 16, 255]),
        6 => board.place.line = wide,
        7 => board.place.clock = wide,
        8 => board.place.address = address,
        9 => board.place.row_start = address,
        10 => board.pointer = dice.pick(&[14, 15, 16, 255]),
        11 => board.page.version = dice.pick(&[0, 1, 2, 3, 4, 255]),
        12 => board.page.switches ^= dice.pick(&[0x10, 0x20, 0x30, 0x40, 0x80]),
        13 => board.page.version = dice.byte(),
        14 => board.page.irs[dice.pick(&[0, 1, 2])] ^= 0x80,
        15 => board.page.chip = dice.pick(&[0, 1, 2, 255]),
        16 => board.page.chip = dice.byte(),
        _ => board.page.irs[dice.between(0, 14) as usize] = dice.byte(),
    }
}

/// The page is brought to the board register by register, then drawn.
fn by_registers(script: &mut Script, dice: &mut Dice) {
    let shape = Shape::small(dice);
    let mut page = page(dice, shape);
    page = some_with_codes(dice, 3, page);
    place_cells(dice, &mut page);
    page.switches = page.switches & !3 | dice.pick(&[1, 3, 3]);
    let chars = script.chars(dice);
    cursor_in_sight(dice, &mut page, &chars);
    script.attrs(dice);
    script.font(dice);
    script.numbers(&page);
    if page.version == 1 {
        script.say("call power");
    } else {
        // no register write makes another version or sets its switches and chip, so the board comes with them
        let bare = Page { version: page.version, switches: page.switches & 0x30, chip: page.chip, ..Page::default() };
        script.board(&Board { page: bare, ..Board::default() });
    }
    script.say(format!("call write 1 {}", dice.pick(&[0, 41, 16])));
    script.say("call write 1 0");
    script.say("call read 3");
    script.say("call write 1 0");
    bring(script, dice, &page);
    script.frame(&page);
    states(script, dice, &page);
}

/// IRs, addresses with upper bits that are not kept, the video setting, and at last display and cursor together or one by one.
fn bring(script: &mut Script, dice: &mut Dice, page: &Page) {
    script.say(format!("call write 1 {}", 0x10));
    for ir in page.irs {
        script.say(format!("call write 0 {}", ir));
    }
    let again = dice.between(0, 14);
    script.say(format!("call write 1 {}", 0x10 + again));
    script.say(format!("call write 0 {}", page.irs[again as usize]));
    let [s1, c, s2] = [page.start1, page.cursor, page.start2].map(u16::to_be_bytes);
    for (address, byte) in [(3, s1[0]), (2, s1[1]), (4, c[1]), (5, c[0]), (7, s2[0]), (6, s2[1])] {
        script.say(format!(
            "call write {} {}",
            address,
            byte | if address % 2 == 1 { dice.pick(&[0, 0xC0]) } else { 0 }
        ));
        script.say(format!("call read {}", address));
    }
    let on = |bit: u8| page.switches >> bit & 1;
    script.say(format!("call set_video {} {} {} {}", page.dots, page.strike, on(2), on(3)));
    let commands: &[u8] = match (on(1), dice.one_in(2)) {
        (1, true) => &[0x28, 0x3D],
        (1, false) => &[0x31, 0x2D],
        (_, true) => &[0x38, 0x29],
        (_, false) => &[0x29, 0x30],
    };
    commands.iter().for_each(|command| script.say(format!("call write 1 {}", command)));
}

/// An editor that steps and writes in turn, in the middle of lines and frames.
fn live(script: &mut Script, dice: &mut Dice) {
    let shape = Shape::small(dice);
    let mut page = page(dice, shape);
    page = some_with_codes(dice, 2, page);
    place_cells(dice, &mut page);
    let chars = script.chars(dice);
    set_up(script, dice, &page, &chars, 2);
    script.frame(&page);
    for _ in 0..25 {
        match dice.between(0, 7) {
            0 => script.say(format!("call write {} {}", dice.between(2, 7), dice.byte())),
            1 => script.say(format!("call write 1 {}", dice.pick(&[0x28, 0x29, 0x30, 0x31, 0x38, 0x39, 0x2C, 0]))),
            2 => script.say(format!("call write 1 {}", 0x16 + dice.between(0, 8))),
            3 => script.say(format!("call write 0 {}", dice.byte())),
            4 => script.say(format!(
                "call set_video {} {} {} 0",
                dice.between(6, 12),
                dice.between(0, 15),
                dice.byte() & 1
            )),
            5 => script.say(format!("set chars {} {}", dice.between(0, 16380), hex(&[dice.byte(), dice.byte()]))),
            6 if page.row_table_on() => {
                // rows lose their codes, or get them back
                page.irs[0] ^= 0x80;
                script.say("call write 1 16");
                script.say(format!("call write 0 {}", page.irs[0]));
            }
            _ => script.say(format!("set attrs {} {}", dice.between(0, 16380), hex(&[dice.byte(), dice.byte()]))),
        }
        script.say(format!("call step {}", dice.between(1, page.ht() * 3)));
    }
    // what the editor shows is saved, moved and drawn
    script.say(format!("fill numbers 32 {}", dice.seed()));
    script.say("call numbers_of");
    script.moves(&page);
    script.say(format!("fill out {} {}", page.picture_dots(), dice.seed()));
    script.say(format!("call picture_draw {}", dice.byte()));
}

/// Page and font files with a few bytes disturbed, read and then drawn.
fn files(script: &mut Script, dice: &mut Dice) {
    let shape = Shape::small(dice);
    let mut page = page(dice, shape);
    page = some_with_codes(dice, 3, page);
    place_cells(dice, &mut page);
    script.say(format!("fill numbers 32 {}", dice.seed()));
    script.say(format!("fill chars 16384 {}", dice.seed()));
    script.say(format!("fill attrs 16384 {}", dice.seed()));
    font_files(script, dice);
    script.say(format!("fill file {} {}", page_head(&page).len() + 2 * MEMORY, dice.seed()));
    for _ in 0..6 {
        script.say(format!("set file 0 {}", hex(&page_head(&page))));
        script.say(format!("set file {} {}", dice.between(0, 29), hex(&[dice.byte()])));
        script.say("call page_read");
    }
    for version in [dice.between(0, 4) as u8, dice.between(1, 3) as u8, page.version] {
        script.say(format!("set file 0 {}", hex(&page_head(&page))));
        script.say(format!("set file 0 {}", hex(&[version])));
        script.say("call page_read");
    }
    script.say("call board_of");
    script.frame(&page);
    script.say(format!("fill out {} {}", PAGE_FILE + dice.between(0, 9) as usize, dice.seed()));
    script.say("call page_write");
}

/// A font file without and with groups, of which one may be refused, a byte too short, right or too long. The groups
/// that it gives, or none, are lent.
fn font_files(script: &mut Script, dice: &mut Dice) {
    for (buffer, size) in [("words", 1152), ("flags", 128), ("unshifted", 9), ("shifted", 9)] {
        script.say(format!("fill {} {} {}", buffer, size, dice.seed()));
    }
    script.groups(&groups(dice));
    for with_groups in [false, true, dice.one_in(2)] {
        let head = font_head(with_groups);
        let right = if with_groups { GROUPS_FONT_FILE } else { FONT_FILE };
        let size = dice.pick(&[right, right, right, right - 1, right + 1]);
        script.say(format!("fill file {} {}", size, dice.seed()));
        script.say(format!("set file 0 {}", hex(&head)));
        if with_groups {
            let mut groups = groups(dice);
            groups[dice.between(0, 15) as usize] = dice.pick(&[0, 1, 2, 3, 4, 4, 5, 255]);
            script.say(format!("set file {} {}", FONT_FILE, hex(&groups[..16.min(size - FONT_FILE)])));
        }
        script.say("call font_read");
    }
    if dice.one_in(3) {
        script.say("none groups");
    }
}

/// Right and wrong sizes of everything.
fn sizes(script: &mut Script, dice: &mut Dice) {
    let shape = Shape::small(dice);
    let plain = page(dice, shape);
    let page = some_with_codes(dice, 3, plain);
    let board = Board { resets: dice.pick(&[0, 1, 2, 200]), ..Board::of_page(page) };
    let chars = script.chars(dice);
    set_up(script, dice, &page, &chars, board.resets);
    script.frame(&page);
    script.board(&board);
    let memories = [("chars", 16384), ("attrs", 16384)];
    let font = [("words", 1152), ("flags", 128), ("unshifted", 9), ("shifted", 9), ("groups", 16)];
    for _ in 0..8 {
        let (buffer, size) = dice.pick(&[&memories[..], &font].concat());
        let wrong = dice.pick(&[0, 1, 7, size - 1, size + 1, 2 * size, 4 * size + 1]);
        script.say(format!("fill {} {} {}", buffer, wrong, dice.seed()));
        script.say("call step 2");
        script.say(format!("call state_at {}", dice.seed()));
        script.say(format!("call row_run {}", dice.between(0, page.rows())));
        cells(script, dice, &page);
        index(script, dice, &page, &chars);
        script.say("call to_table");
        script.say("call to_sheet");
        lines(script, dice, &page);
        pictures(script, dice, &page);
        // random groups are refused 12
        let seed = if buffer == "groups" { dice.pick(&[0, 0, 0, 1]) } else { dice.seed() };
        script.say(format!("fill {} {} {}", buffer, size, seed));
    }
}
