//! the index of phrases. Naive on purpose: each record's cells are gone through one by one, and each record is compared with
//! each after it.

use crate::board::MEMORY;

/// "phrase records, each with language, number and first cell, and a length in cells"
#[derive(Clone, Copy, PartialEq, Eq, Debug, Default)]
pub struct Phrase {
    pub language: u32,
    pub number: u32,
    pub first: u32,
    pub length: u32,
}

impl Phrase {
    /// The cells from one to another, both among them.
    pub fn over(language: u32, number: u32, from: u32, to: u32) -> Phrase {
        Phrase { language, number, first: from, length: to + 1 - from }
    }

    /// 64 bits hold every sum of two numbers of 32.
    fn end(self) -> u64 {
        u64::from(self.first) + u64::from(self.length)
    }

    /// "a record of length 0 or passing 16383"
    fn bad(self) -> bool {
        self.length == 0 || self.end() > MEMORY as u64
    }

    fn same_name(self, other: Phrase) -> bool {
        (self.language, self.number) == (other.language, other.number)
    }
}

/// Which record is refused: "the first such position"
pub fn first_bad(phrases: &[Phrase]) -> Option<usize> {
    phrases.iter().position(|phrase| phrase.bad())
}

/// "the record whose cells hold the whole of what the row fetches: the lowest in the list if several do, none exactly if none
/// does"; none of them is bad.
pub fn holder(phrases: &[Phrase], row_cells: &[u16]) -> Option<usize> {
    let mut fetched = vec![false; MEMORY];
    row_cells.iter().for_each(|&cell| fetched[usize::from(cell)] = true);
    let all = fetched.iter().filter(|&&one| one).count();
    let held = |phrase: &Phrase| (u64::from(phrase.first)..phrase.end()).filter(|&cell| fetched[cell as usize]).count();
    phrases.iter().position(|phrase| held(phrase) == all)
}

/// "two records with the same language and number differ in first cell or length, [..] the first such pair, by the earlier
/// record's position, then the later's"
pub fn first_pair(phrases: &[Phrase]) -> Option<(usize, usize)> {
    for earlier in 0..phrases.len() {
        for later in earlier + 1..phrases.len() {
            let (a, b) = (phrases[earlier], phrases[later]);
            if a.same_name(b) && (a.first != b.first || a.length != b.length) {
                return Some((earlier, later));
            }
        }
    }
    None
}
