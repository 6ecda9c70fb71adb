//! Compares two streams of answers script by script and counts call by answer number by power state and mode, and what
//! was met of and R-6 (`met`) and of R-7 (`chips`). A case counts only where its whole script was the same on
//! both sides.

use std::collections::BTreeMap;
use std::io::BufRead;

use crate::chips::Chips;
use crate::met::Met;

/// "Lowest number first, except that 12 precedes 4", R-2's three in the place of 5, and R-5's and R-6's after these: the table's
/// columns.
const NUMBERS: [u32; 19] = [0, 1, 2, 3, 12, 4, 13, 14, 15, 6, 7, 8, 9, 10, 16, 19, 17, 18, 20];

const NO_BOARD: &[&str] = &["-"];
const INACTIVE: &[&str] = &["inactive-0", "inactive-1"];
const ACTIVE: &[&str] = &["active"];
const EVERY_POWER: &[&str] = &["inactive-0", "inactive-1", "active"];

const NO_PAGE: &[&str] = &["-"];
const PLAIN: &[&str] = &["character", "field", "character+graphics", "field+graphics"];
const CODED: &[&str] = &["character+codes", "field+codes", "character+codes+graphics", "field+codes+graphics"];
const NO_TABLE: &[&str] = &["no-table"];
const ANY: &[&str] = &[
    "character",
    "field",
    "character+graphics",
    "field+graphics",
    "character+codes",
    "field+codes",
    "character+codes+graphics",
    "field+codes+graphics",
];
const ANY_AND_NO_TABLE: &[&str] = &[
    "character",
    "field",
    "character+graphics",
    "field+graphics",
    "character+codes",
    "field+codes",
    "character+codes+graphics",
    "field+codes+graphics",
    "no-table",
];

/// Which answers a call may give in a power state and a mode, and 01's words for it, with R-2's numbers, or 02's.
struct Allowed {
    call: &'static str,
    powers: &'static [&'static str],
    modes: &'static [&'static str],
    numbers: &'static [u32],
    words: &'static str,
}

const fn allowed(
    call: &'static str,
    powers: &'static [&'static str],
    modes: &'static [&'static str],
    numbers: &'static [u32],
    words: &'static str,
) -> Allowed {
    Allowed { call, powers, modes, numbers, words }
}

const FILES: &str = "Files give 1, 2 (reading only), 3, 12, 4, 13, 14, 15, 6";
const DRAWING: &str = "Drawing, stepping, states and runs give 3, 4, 6 to 8 and 12 to 15";
const REGISTERS: &str = "Register calls give 12, 7 (for the pointer only), 9, 10";
const RESERVED: &str = "4 now means interlace, or IR0[7] without the row table";
const MOVES: &str = "after the page's own, in this order: 16, 19, 17 (there only), 18 (back only)";
const KIND: &str = "16 page already of the kind asked for";
const CODES: &str = "19 IR0[7] set";
const PHRASES: &str = "the page's and row's own, then 20";

/// Every cell of the table that 01 allows. A page's numbers hold no place and no pointer, so that calls which
/// take them have no 7 but for an asked line or row; 8 needs a buffer for dots. Numbers that are no page are 3.
const ALLOWED: &[Allowed] = &[
    allowed("page_check", NO_BOARD, NO_PAGE, &[3], FILES),
    allowed("page_check", NO_BOARD, ANY, &[0, 12, 4, 13, 14, 15, 6], FILES),
    allowed("page_check", NO_BOARD, NO_TABLE, &[12, 4], RESERVED),
    allowed("page_size", NO_BOARD, NO_PAGE, &[3], FILES),
    allowed("page_size", NO_BOARD, ANY, &[0, 12, 4, 13, 14, 15, 6], FILES),
    allowed("page_size", NO_BOARD, NO_TABLE, &[12, 4], RESERVED),
    allowed("page_read", NO_BOARD, NO_PAGE, &[1, 2], FILES),
    allowed("page_read", NO_BOARD, ANY, &[0, 2, 3, 12, 4, 13, 14, 15, 6], FILES),
    allowed("page_read", NO_BOARD, NO_TABLE, &[2, 3, 12, 4], RESERVED),
    allowed("page_write", NO_BOARD, NO_PAGE, &[3], FILES),
    allowed("page_write", NO_BOARD, ANY, &[0, 3, 12, 4, 13, 14, 15, 6], FILES),
    allowed("page_write", NO_BOARD, NO_TABLE, &[3, 12, 4], RESERVED),
    allowed("font_read", NO_BOARD, NO_PAGE, &[0, 1, 2, 3, 12], "12 also covers a group above 4"),
    allowed("line_draw", NO_BOARD, NO_PAGE, &[3], DRAWING),
    allowed("line_draw", NO_BOARD, ANY, &[0, 3, 12, 4, 13, 14, 15, 6, 7, 8], DRAWING),
    allowed("line_draw", NO_BOARD, NO_TABLE, &[3, 12, 4], RESERVED),
    allowed("picture_draw", NO_BOARD, NO_PAGE, &[3], DRAWING),
    allowed("picture_draw", NO_BOARD, ANY, &[0, 3, 12, 4, 13, 14, 15, 6, 8], DRAWING),
    allowed("picture_draw", NO_BOARD, NO_TABLE, &[3, 12, 4], RESERVED),
    allowed("row_run", NO_BOARD, NO_PAGE, &[3], DRAWING),
    allowed("row_run", NO_BOARD, ANY, &[0, 3, 12, 4, 13, 14, 15, 6, 7], DRAWING),
    allowed("row_run", NO_BOARD, NO_TABLE, &[3, 12, 4], RESERVED),
    allowed("row_cells", NO_BOARD, NO_PAGE, &[3], DRAWING),
    allowed("row_cells", NO_BOARD, ANY, &[0, 3, 12, 4, 13, 14, 15, 6, 7], DRAWING),
    allowed("row_cells", NO_BOARD, NO_TABLE, &[3, 12, 4], RESERVED),
    allowed("phrase_of_row", NO_BOARD, NO_PAGE, &[3], PHRASES),
    allowed("phrase_of_row", NO_BOARD, ANY, &[0, 3, 12, 4, 13, 14, 15, 6, 7, 20], PHRASES),
    allowed("phrase_of_row", NO_BOARD, NO_TABLE, &[3, 12, 4], RESERVED),
    allowed("phrases_differ", NO_BOARD, NO_PAGE, &[0, 20], "20 for a record of length 0 or passing 16383"),
    allowed("to_table", NO_BOARD, NO_PAGE, &[3], MOVES),
    allowed("to_table", NO_BOARD, PLAIN, &[0, 3, 12, 4, 13, 14, 15, 6, 16, 17], MOVES),
    allowed("to_table", NO_BOARD, CODED, &[3, 12, 4, 13, 14, 15, 6, 16], KIND),
    allowed("to_table", NO_BOARD, NO_TABLE, &[3, 12, 4], RESERVED),
    allowed("to_sheet", NO_BOARD, NO_PAGE, &[3], MOVES),
    allowed("to_sheet", NO_BOARD, PLAIN, &[0, 3, 12, 4, 13, 14, 15, 6, 16, 18], MOVES),
    allowed("to_sheet", NO_BOARD, CODED, &[3, 12, 4, 13, 14, 15, 6, 19], CODES),
    allowed("to_sheet", NO_BOARD, NO_TABLE, &[3, 12, 4], RESERVED),
    allowed("power", NO_BOARD, NO_PAGE, &[0], "Power gives zeros throughout"),
    allowed("board_of", NO_BOARD, NO_PAGE, &[3], FILES),
    allowed("board_of", NO_BOARD, ANY, &[0, 12, 4, 13, 14, 15, 6], FILES),
    allowed("board_of", NO_BOARD, NO_TABLE, &[12, 4], RESERVED),
    allowed("numbers_of", EVERY_POWER, ANY, &[0, 3, 12, 4, 13, 14, 15, 6], FILES),
    allowed("numbers_of", EVERY_POWER, NO_TABLE, &[3, 12, 4], RESERVED),
    allowed("set_video", EVERY_POWER, ANY_AND_NO_TABLE, &[0, 12, 6], "refusing 12, then 6"),
    allowed("write", INACTIVE, ANY_AND_NO_TABLE, &[0, 12, 7, 9], "after 9 an inactive board answers 0"),
    allowed("write", ACTIVE, ANY_AND_NO_TABLE, &[0, 12, 7, 9, 10], REGISTERS),
    allowed("read", EVERY_POWER, ANY_AND_NO_TABLE, &[0, 12, 7, 9], REGISTERS),
    allowed("state_at", EVERY_POWER, ANY, &[0, 3, 12, 4, 13, 14, 15, 6, 7], DRAWING),
    allowed("state_at", EVERY_POWER, NO_TABLE, &[3, 12, 4], RESERVED),
    allowed("step", EVERY_POWER, ANY, &[0, 3, 12, 4, 13, 14, 15, 6, 7], DRAWING),
    allowed("step", EVERY_POWER, NO_TABLE, &[3, 12, 4], RESERVED),
];

/// How often a call gave a number in a power state and a mode.
type Tally = BTreeMap<(String, String, String, u32), u64>;

/// One script's answers.
struct Block {
    name: String,
    lines: Vec<String>,
}

/// A stream of answers; `ended` once its last line, `end`, was read.
struct Stream<'a> {
    input: &'a mut dyn BufRead,
    next_name: Option<String>,
    ended: bool,
}

impl<'a> Stream<'a> {
    fn new(input: &'a mut dyn BufRead) -> Result<Stream<'a>, String> {
        let mut stream = Stream { input, next_name: None, ended: false };
        let before = stream.block_lines()?;
        if before.is_empty() {
            Ok(stream)
        } else {
            Err(format!("answers begin before a script does: {}", before[0]))
        }
    }

    /// Lines up to the next script's name or the end.
    fn block_lines(&mut self) -> Result<Vec<String>, String> {
        let mut lines = Vec::new();
        self.next_name = None;
        loop {
            let mut line = String::new();
            if self.input.read_line(&mut line).map_err(|error| error.to_string())? == 0 {
                return Ok(lines);
            }
            let line = line.trim_end();
            if line == "end" {
                self.ended = true;
                return Ok(lines);
            }
            if let Some(name) = line.strip_prefix("script ") {
                self.next_name = Some(name.to_string());
                return Ok(lines);
            }
            lines.push(line.to_string());
        }
    }

    fn next(&mut self) -> Result<Option<Block>, String> {
        match self.next_name.take() {
            Some(name) => Ok(Some(Block { name, lines: self.block_lines()? })),
            None => Ok(None),
        }
    }
}

#[derive(Default)]
struct Outcome {
    compared: u64,
    differing: u64,
    tally: Tally,
    met: Met,
    chips: Chips,
}

/// Both streams read to their ends; prints the tables. True where all agreed, `asked` scripts or more were
/// compared, and each allowed cell, and no other, was met.
pub fn compare(asked: u64, ours: &mut dyn BufRead, theirs: &mut dyn BufRead) -> Result<bool, String> {
    let (mut ours, mut theirs) = (Stream::new(ours)?, Stream::new(theirs)?);
    let mut outcome = Outcome::default();
    loop {
        match (ours.next()?, theirs.next()?) {
            (Some(a), Some(b)) => outcome.judge(&a, &b),
            (None, None) => break,
            (Some(one), None) => return Err(format!("the second stream has no script {}", one.name)),
            (None, Some(one)) => return Err(format!("the first stream has no script {}", one.name)),
        }
    }
    if !ours.ended || !theirs.ended {
        return Err("a stream breaks off before its end".to_string());
    }
    let empty = print_table(&outcome.tally) + outcome.met.print() + outcome.chips.print();
    let strange = [strange(&outcome.tally), outcome.met.strange(), outcome.chips.strange()].concat();
    strange.iter().for_each(|cell| println!("01 allows no such answer: {}", cell));
    println!("{} scripts compared, {} differ, {} allowed cells empty", outcome.compared, outcome.differing, empty);
    Ok(outcome.differing == 0 && outcome.compared >= asked && empty == 0 && strange.is_empty())
}

impl Outcome {
    fn judge(&mut self, ours: &Block, theirs: &Block) {
        let apart = first_difference(ours, theirs).or_else(|| order_that_differs(ours));
        match apart {
            None => {
                self.compared += 1;
                for line in &ours.lines {
                    count(&mut self.tally, line);
                    self.met.count(line);
                    self.chips.count(line);
                }
            }
            Some(what) => {
                self.differing += 1;
                if self.differing <= 10 {
                    println!("script {}: {}", ours.name, what);
                }
            }
        }
    }
}

fn first_difference(ours: &Block, theirs: &Block) -> Option<String> {
    if ours.name != theirs.name {
        return Some(format!("the second stream has {} here", theirs.name));
    }
    let lines = ours.lines.len().max(theirs.lines.len());
    let nothing = String::from("(nothing)");
    let pair = |at: usize| (ours.lines.get(at).unwrap_or(&nothing), theirs.lines.get(at).unwrap_or(&nothing));
    let at = (0..lines).find(|&at| pair(at).0 != pair(at).1)?;
    let (a, b) = pair(at);
    Some(format!("answer {} differs\n  first:  {}\n  second: {}", at + 1, a, b))
}

/// Both sides may agree that steps, lines and picture show different dots, steps and rows other cells, or that a page shows
/// something else where it was moved: that is no agreement.
fn order_that_differs(block: &Block) -> Option<String> {
    let orders = ["frame ", "moves "];
    let differs = |line: &&String| line.contains(" differ ") && orders.iter().any(|order| line.starts_with(order));
    block.lines.iter().find(differs).map(|line| format!("not the same in itself, on both sides: {}", line))
}

/// An answer's line begins "CALL POWER MODE COUNT REFUSAL".
fn count(tally: &mut Tally, line: &str) {
    let words: Vec<&str> = line.split(' ').collect();
    if let [call, power, mode, count, refusal, ..] = words[..] {
        if let (Ok(count), Ok(refusal)) = (count.parse::<u64>(), refusal.parse()) {
            *tally.entry((call.to_string(), power.to_string(), mode.to_string(), refusal)).or_insert(0) += count;
        }
    }
}

/// Gives how many allowed cells are empty.
fn print_table(tally: &Tally) -> u64 {
    let mut empty = 0;
    print!("{:<15}{:<11}{:<25}", "call", "power", "mode");
    NUMBERS.iter().for_each(|number| print!("{:>9}", number));
    println!();
    for row in ALLOWED {
        for power in row.powers {
            for mode in row.modes {
                empty += print_row(tally, row, power, mode);
            }
        }
    }
    empty
}

fn print_row(tally: &Tally, row: &Allowed, power: &str, mode: &str) -> u64 {
    let mut empty = 0;
    print!("{:<15}{:<11}{:<25}", row.call, power, mode);
    for number in NUMBERS {
        let key = (row.call.to_string(), power.to_string(), mode.to_string(), number);
        let text = match (row.numbers.contains(&number), tally.get(&key)) {
            (_, Some(count)) => count.to_string(),
            (true, None) => "EMPTY".to_string(),
            (false, None) => ".".to_string(),
        };
        empty += u64::from(text == "EMPTY");
        print!("{:>9}", text);
    }
    println!("   {}", row.words);
    empty
}

/// Cells that were met and are not allowed.
fn strange(tally: &Tally) -> Vec<String> {
    let allowed = |call: &str, power: &str, mode: &str, number: u32| {
        let here = |row: &&Allowed| row.call == call && row.powers.contains(&power) && row.modes.contains(&mode);
        ALLOWED.iter().filter(here).any(|row| row.numbers.contains(&number))
    };
    let cells = tally.keys().filter(|(call, power, mode, number)| !allowed(call, power, mode, *number));
    cells.map(|(call, power, mode, number)| format!("{} {} {} {}", call, power, mode, number)).collect()
}
