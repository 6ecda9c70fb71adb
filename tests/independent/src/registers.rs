//! 01 "The board that is built": writes, reads and commands. Commands are read off 003's Table 6 as printed.

use crate::board::{Board, Page, Place};
use crate::judge::{self, fault, Refusal};

#[derive(Clone, Copy, PartialEq, Eq, Debug)]
enum Command {
    MasterReset,
    LoadPointer,
    DisplayOff,
    DisplayOn,
    CursorOff,
    CursorOn,
    NotCarried,
}

/// 003 Table 6, D7 first; `d` is don't care, `N` and `V` are the command's own bits.
const TABLE_6: [(&str, Command); 20] = [
    ("00000000", Command::MasterReset),
    ("0001VVVV", Command::LoadPointer),
    ("001ddd10", Command::NotCarried), // disable graphics
    ("001ddd11", Command::NotCarried), // enable graphics
    ("001d1Nd0", Command::DisplayOff),
    ("001d1Nd1", Command::DisplayOn),
    ("0011ddd0", Command::CursorOff),
    ("0011ddd1", Command::CursorOn),
    ("010NNNNN", Command::NotCarried), // reset interrupt/status
    ("100NNNNN", Command::NotCarried), // disable interrupt
    ("011NNNNN", Command::NotCarried), // enable interrupt
    ("10100100", Command::NotCarried), // read at pointer
    ("10100010", Command::NotCarried), // write at pointer
    ("10101001", Command::NotCarried), // increment cursor
    ("10101100", Command::NotCarried), // read at cursor
    ("10101010", Command::NotCarried), // write at cursor
    ("10101101", Command::NotCarried), // read at cursor and increment
    ("10101011", Command::NotCarried), // write at cursor and increment
    ("10111011", Command::NotCarried), // write from cursor to pointer
    ("10111101", Command::NotCarried), // read from cursor to pointer
];

fn fits(pattern: &str, byte: u8) -> bool {
    let bits = format!("{:08b}", byte);
    pattern.chars().zip(bits.chars()).all(|(wanted, bit)| wanted.is_alphabetic() || wanted == bit)
}

/// Every command of Table 6 that a byte names.
fn named(byte: u8) -> Vec<Command> {
    TABLE_6.iter().filter(|(pattern, _)| fits(pattern, byte)).map(|&(_, command)| command).collect()
}

/// "10: command not carried, or pointer 15". "A byte in which 003 combines display and cursor commands does
/// both; one that names any other command with them is not carried."
fn carried(byte: u8) -> bool {
    let commands = named(byte);
    let pointer_15 = commands.contains(&Command::LoadPointer) && byte & 0x0F == 15;
    !commands.is_empty() && !commands.contains(&Command::NotCarried) && !pointer_15
}

/// "a call of its own sets dots, strike line, BKGND and RBLANK, refusing 12, then 6"
pub fn set_video(board: &mut Board, dots: u8, strike: u8, bkgnd: bool, rblank: bool) -> Refusal {
    let mut faults = judge::addresses(&board.page);
    faults.push(judge::strike(strike));
    faults.push(judge::dots(u32::from(dots)));
    let refusal = judge::first(&faults);
    if !refusal.refused() {
        board.page.dots = u32::from(dots);
        board.page.strike = strike;
        set_switch(&mut board.page, 2, bkgnd);
        set_switch(&mut board.page, 3, rblank);
    }
    refusal
}

/// "Register calls give 12, 7 (for the pointer only), 9, 10."
fn register_faults(board: &Board, address: u8) -> Vec<judge::Fault> {
    let mut faults = judge::addresses(&board.page);
    faults.push(judge::strike(board.page.strike));
    faults.push(judge::pointer(board));
    faults.push(fault(9, address > 7));
    faults
}

pub fn write(board: &mut Board, address: u8, byte: u8) -> Refusal {
    let mut faults = register_faults(board, address);
    // "after 9 an inactive board answers 0"
    faults.push(fault(10, board.active() && address == 1 && !carried(byte)));
    let refusal = judge::first(&faults);
    if refusal.refused() {
        return refusal;
    }
    if address == 1 && named(byte) == [Command::MasterReset] {
        master_reset(board);
    } else if !board.active() {
        // "any other write at addresses 0 to 7 answers 0 and only breaks that run"
        board.resets = 0;
    } else {
        write_active(board, address, byte);
    }
    Refusal::NONE
}

/// "Reads at 0 and 1 give 0"; the refusal and the byte.
pub fn read(board: &Board, address: u8) -> (Refusal, u8) {
    let refusal = judge::first(&register_faults(board, address));
    let page = &board.page;
    let byte = match address {
        _ if refusal.refused() => 0,
        2 => low(page.start1),
        3 => high(page.start1),
        4 => low(page.cursor),
        5 => high(page.cursor),
        6 => low(page.start2),
        7 => high(page.start2),
        _ => 0,
    };
    (refusal, byte)
}

fn low(address: u16) -> u8 {
    (address % 256) as u8
}

fn high(address: u16) -> u8 {
    (address / 256) as u8
}

/// "Every reset, the first of two as well, sets the pointer to IR0, the place and counts to clock 0, display
/// and cursor off, all else kept; an active board stays active."
fn master_reset(board: &mut Board) {
    board.pointer = 0;
    board.place = Place::default();
    set_switch(&mut board.page, 0, false);
    set_switch(&mut board.page, 1, false);
    board.resets = if board.resets == 0 { 1 } else { 2 };
}

fn write_active(board: &mut Board, address: u8, byte: u8) {
    let page = &mut board.page;
    match address {
        0 => {
            // "Writes at address 0 go to the pointed register; the pointer then moves on and stays at IR14."
            page.irs[usize::from(board.pointer)] = byte;
            if board.pointer < 14 {
                board.pointer += 1;
            }
        }
        1 => named(byte).into_iter().for_each(|command| obey(board, command, byte)),
        2 => set_low(&mut page.start1, byte),
        3 => set_high(&mut page.start1, byte),
        4 => set_low(&mut page.cursor, byte),
        5 => set_high(&mut page.cursor, byte),
        6 => set_low(&mut page.start2, byte),
        7 => set_high(&mut page.start2, byte),
        _ => unreachable!("an address above 7 is refused"),
    }
}

fn obey(board: &mut Board, command: Command, byte: u8) {
    match command {
        Command::LoadPointer => board.pointer = byte & 0x0F,
        Command::DisplayOff => set_switch(&mut board.page, 0, false),
        Command::DisplayOn => set_switch(&mut board.page, 0, true),
        Command::CursorOff => set_switch(&mut board.page, 1, false),
        Command::CursorOn => set_switch(&mut board.page, 1, true),
        Command::MasterReset | Command::NotCarried => unreachable!("acted on or refused before"),
    }
}

fn set_switch(page: &mut Page, bit: u32, on: bool) {
    page.switches &= !(1 << bit);
    page.switches |= u8::from(on) << bit;
}

fn set_low(register: &mut u16, byte: u8) {
    *register = *register / 256 * 256 + u16::from(byte);
}

/// "Upper registers keep six bits; bits 7 and 6 read 0"
fn set_high(register: &mut u16, byte: u8) {
    *register = u16::from(byte & 0x3F) * 256 + *register % 256;
}
