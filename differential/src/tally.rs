//! How many calls were compared, by board and kind, and what they answered.

use crate::events::{Answer, Kind, REFUSED};
use crate::images::NAMES;

#[derive(Clone, Default)]
pub struct Board {
    pub histories: u64,
    pub reads: u64,
    pub writes: u64,
    pub clocks: u64,
    pub notices: u64,
    pub yes: u64,
    /// By number, 11 to 14.
    pub refused: [u64; 16],
    /// Calls that were also made through the wrapper, and through the map: the same ones.
    pub paged: u64,
    /// Of these the refused ones, by number.
    pub paged_refused: [u64; 16],
    /// Bytes of RAM that were read through their page and by the call, from the same buffers.
    pub both_ways: u64,
}

#[derive(Clone, Default)]
pub struct Tally {
    pub boards: [Board; 5],
    pub headers: u64,
    pub loads: u64,
    /// Loads by refusal; 0 counts the accepted ones.
    pub load_answers: [u64; 16],
}

impl Board {
    #[inline]
    pub fn count(&mut self, kind: Kind, answer: Answer) {
        match kind {
            Kind::Read => self.reads += 1,
            Kind::Write => {
                self.writes += 1;
                self.notices += u64::from(answer != 0 && answer < REFUSED);
            }
            Kind::Clock => {
                self.clocks += 1;
                self.yes += u64::from(answer == 1);
            }
        }
    }

    pub fn count_refusal(&mut self, answer: Answer) {
        self.refused[usize::from(answer - REFUSED) % 16] += 1;
    }

    #[inline]
    pub fn count_paged(&mut self, answer: Answer) {
        self.paged += 1;
        if answer >= REFUSED {
            self.paged_refused[usize::from(answer - REFUSED) % 16] += 1;
        }
    }

    pub fn calls(&self) -> u64 {
        self.reads + self.writes + self.clocks
    }

    fn add(&mut self, other: &Board) {
        self.histories += other.histories;
        self.reads += other.reads;
        self.writes += other.writes;
        self.clocks += other.clocks;
        self.notices += other.notices;
        self.yes += other.yes;
        add_all(&mut self.refused, &other.refused);
        self.paged += other.paged;
        add_all(&mut self.paged_refused, &other.paged_refused);
        self.both_ways += other.both_ways;
    }
}

/// What a run has to compare at least.
pub struct Floor {
    pub in_all: u64,
    pub on_each: u64,
    pub paged: u64,
    pub paged_on_each: u64,
    /// Of each number, 11 to 14.
    pub paged_refused: u64,
    pub both_ways: u64,
}

impl Tally {
    pub fn calls(&self) -> u64 {
        self.headers + self.loads + self.boards.iter().map(Board::calls).sum::<u64>()
    }

    pub fn add(&mut self, other: &Tally) {
        for (mine, theirs) in self.boards.iter_mut().zip(&other.boards) {
            mine.add(theirs);
        }
        self.headers += other.headers;
        self.loads += other.loads;
        add_all(&mut self.load_answers, &other.load_answers);
    }

    pub fn count_load(&mut self, answer: Answer) {
        self.loads += 1;
        self.load_answers[usize::from(answer.saturating_sub(REFUSED)) % 16] += 1;
    }

    pub fn paged(&self) -> u64 {
        self.boards.iter().map(|board| board.paged).sum()
    }

    fn paged_refused(&self) -> [u64; 16] {
        let mut all = [0; 16];
        self.boards.iter().for_each(|board| add_all(&mut all, &board.paged_refused));
        all
    }

    pub fn both_ways(&self) -> u64 {
        self.boards.iter().map(|board| board.both_ways).sum()
    }

    /// What is missing to this floor, if anything.
    pub fn shortfall(&self, floor: &Floor) -> Option<String> {
        let mut counts = vec![
            (self.calls(), floor.in_all, "calls in all".to_string()),
            (self.paged(), floor.paged, "calls through the wrapper".into()),
            (self.both_ways(), floor.both_ways, "bytes of RAM read both ways".into()),
        ];
        for (name, board) in NAMES.iter().zip(&self.boards) {
            counts.push((board.calls(), floor.on_each, format!("calls on {name}")));
            counts.push((board.paged, floor.paged_on_each, format!("calls through the wrapper on {name}")));
        }
        for (number, &count) in self.paged_refused().iter().enumerate().skip(11).take(4) {
            counts.push((count, floor.paged_refused, format!("calls refused with {number} through the wrapper")));
        }
        let short = counts.into_iter().find(|(count, least, _)| count < least);
        short
            .map(|(count, least, what)| format!("{} {what}, at least {} are asked for", grouped(count), grouped(least)))
    }

    /// The counts as a table, a row for each board.
    pub fn table(&self) -> String {
        let mut text = String::from(
            "| board | histories | reads | writes | clocks | notices | clocks that said yes | refused calls | \
             of all calls also through wrapper and map |\n\
             |---|---|---|---|---|---|---|---|---|\n",
        );
        for (name, board) in NAMES.iter().zip(&self.boards) {
            let numbers = [board.histories, board.reads, board.writes, board.clocks, board.notices, board.yes];
            let cells: Vec<String> = numbers.iter().map(|&n| grouped(n)).collect();
            let (refused, paged) = (by_number(&board.refused), grouped(board.paged));
            text += &format!("| {name} | {} | {refused} | {paged} |\n", cells.join(" | "));
        }
        let loads = by_number(&self.load_answers);
        text += &format!(
            "\nLoads: {}, of which {} accepted; refused: {loads}. Headers: {}. All calls: {}. Through the wrapper: {}, \
             and as many through the map; refused there: {}; bytes of RAM read both ways: {}.",
            grouped(self.loads),
            grouped(self.load_answers[0]),
            grouped(self.headers),
            grouped(self.calls()),
            grouped(self.paged()),
            by_number(&self.paged_refused()),
            grouped(self.both_ways())
        );
        text
    }
}

fn add_all(mine: &mut [u64; 16], theirs: &[u64; 16]) {
    for (a, b) in mine.iter_mut().zip(theirs) {
        *a += b;
    }
}

fn by_number(counts: &[u64; 16]) -> String {
    let used = counts.iter().enumerate().skip(1).filter(|(_, &count)| count > 0);
    let list: Vec<String> = used.map(|(number, &count)| format!("{number}: {}", grouped(count))).collect();
    if list.is_empty() {
        "none".into()
    } else {
        list.join(", ")
    }
}

/// A number with a comma between groups of three digits.
pub fn grouped(number: u64) -> String {
    let digits = number.to_string();
    let mut text = String::new();
    for (index, digit) in digits.chars().enumerate() {
        if index > 0 && (digits.len() - index) % 3 == 0 {
            text.push(',');
        }
        text.push(digit);
    }
    text
}

#[cfg(test)]
mod tests {
    use super::*;

    #[test]
    fn tells_what_is_missing() {
        let floor =
            Floor { in_all: 1_000, on_each: 120, paged: 600, paged_on_each: 119, paged_refused: 3, both_ways: 5 };
        let mut met = Tally { headers: 400, ..Tally::default() };
        (11..15).for_each(|number| met.boards[3].paged_refused[number] = 3);
        met.boards.iter_mut().for_each(|board| (board.reads, board.paged, board.both_ways) = (120, 120, 1));
        assert_eq!(met.shortfall(&floor), None);
        let missing = |change: fn(&mut Tally)| {
            let mut tally = met.clone();
            change(&mut tally);
            tally.shortfall(&floor).unwrap_or_default()
        };
        let asked = |text: &str, least: &str| format!("{text}, at least {least} are asked for");
        assert_eq!(missing(|tally| tally.headers -= 1), asked("999 calls in all", "1,000"));
        let moved_to_headers = |tally: &mut Tally| (tally.boards[4].reads, tally.headers) = (119, 401);
        assert_eq!(missing(moved_to_headers), asked("119 calls on MMC3", "120"));
        assert_eq!(missing(|tally| tally.boards[0].paged = 119), asked("599 calls through the wrapper", "600"));
        let moved_to_another = |tally: &mut Tally| (tally.boards[0].paged, tally.boards[1].paged) = (118, 122);
        assert_eq!(missing(moved_to_another), asked("118 calls through the wrapper on NROM", "119"));
        assert_eq!(missing(|tally| tally.boards[2].both_ways = 0), asked("4 bytes of RAM read both ways", "5"));
        let one_less = |tally: &mut Tally| tally.boards[3].paged_refused[14] -= 1;
        assert_eq!(missing(one_less), asked("2 calls refused with 14 through the wrapper", "3"));
    }
}
