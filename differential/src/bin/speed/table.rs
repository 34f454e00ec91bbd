//! The section of docs/BENCHMARKS.md: a table for each side of ours, and which goals it misses.

use std::fs;
use std::path::Path;
use std::process::Command;

use differential::images::NAMES;

use crate::calls::CALLS;

pub const BEGIN: &str = "<!-- speed: begin -->";
pub const END: &str = "<!-- speed: end -->";

/// The kinds of calls that are timed, in the order of the table's columns: a label and what it stands for.
pub const MEASURES: [(&str, &str); 7] = [
    ("(a)", "reads, random"),
    ("(b)", "reads, in sequence"),
    ("(c1)", "RAM writes"),
    ("(c2)", "register writes"),
    ("(d)", "clocks"),
    ("(e)", "a frame's mix"),
    ("(f)", "a mix, a bank moved every 200 reads"),
];

/// The ratio to the original to stay within, by column.
pub type Goals = [Option<f64>; MEASURES.len()];

/// Of the wrapper's adapter, which serves from pages.
pub const WRAPPER_GOALS: Goals = [Some(0.5), Some(0.5), Some(1.0), Some(4.0), None, Some(0.7), Some(0.7)];
/// Of the exported calls, which judge all that they are lent each time.
pub const CALL_GOALS: Goals = [Some(4.0), Some(4.0), None, None, None, None, None];

/// What the rounds of one measurement came to.
#[derive(Clone, Copy, Default)]
pub struct Cell {
    /// Nanoseconds a call, ours and the original's: medians.
    pub ours: f64,
    pub theirs: f64,
    /// Ours by the original's, round by round: lower quartile, median, upper quartile.
    pub ratio: [f64; 3],
}

impl Cell {
    /// Of nanoseconds a call, round by round.
    pub fn of(ours: &[f64], theirs: &[f64]) -> Cell {
        let ratios: Vec<f64> = ours.iter().zip(theirs).map(|(ours, theirs)| ours / theirs).collect();
        let ratio = [1, 2, 3].map(|quarter| part(&ratios, quarter));
        Cell { ours: part(ours, 2), theirs: part(theirs, 2), ratio }
    }

    fn text(&self) -> String {
        let [low, middle, high] = self.ratio;
        format!("**{middle:.2}** {low:.2}-{high:.2} ({:.2} : {:.2})", self.ours, self.theirs)
    }

    fn is_over(&self, goal: Option<f64>) -> bool {
        goal.map_or(false, |goal| self.ratio[1] > goal)
    }
}

/// The value that so many quarters of the others are below.
fn part(values: &[f64], quarters: usize) -> f64 {
    let mut sorted = values.to_vec();
    sorted.sort_by(f64::total_cmp);
    sorted[(sorted.len() - 1) * quarters / 4]
}

/// One side on every board, in every measure.
pub struct Table {
    pub title: &'static str,
    pub goals: Goals,
    pub rows: [[Cell; MEASURES.len()]; NAMES.len()],
}

impl Table {
    /// A row for each board, a column for each measure; below it the goals, and each cell that misses one.
    fn text(&self) -> String {
        let heads: Vec<String> = MEASURES.iter().map(|(label, what)| format!("{label} {what}")).collect();
        let rule = "---|".repeat(MEASURES.len());
        let mut text = format!("{}:\n\n| board | {} |\n|---|{rule}\n", self.title, heads.join(" | "));
        for (name, row) in NAMES.iter().zip(&self.rows) {
            let cells: Vec<String> = row.iter().map(Cell::text).collect();
            text += &format!("| {name} | {} |\n", cells.join(" | "));
        }
        text + &format!("\n{}\n", self.verdict())
    }

    fn verdict(&self) -> String {
        let asked = MEASURES.iter().zip(self.goals);
        let asked = asked.filter_map(|((label, _), goal)| goal.map(|goal| format!("{label} {goal:.1}")));
        let asked: Vec<String> = asked.collect();
        let missed = self.missed();
        let outcome =
            if missed.is_empty() { "met on every board".into() } else { format!("missed by {}", missed.join(", ")) };
        format!("Goals, at most {}: {outcome}.", asked.join(", "))
    }

    fn missed(&self) -> Vec<String> {
        let mut missed = Vec::new();
        for (name, row) in NAMES.iter().zip(&self.rows) {
            for (cell, (goal, (label, _))) in row.iter().zip(self.goals.iter().zip(MEASURES)) {
                if cell.is_over(*goal) {
                    missed.push(format!("{name} {label} with {:.2}", cell.ratio[1]));
                }
            }
        }
        missed
    }
}

pub fn section(tables: &[Table], rounds: usize) -> String {
    let tables: Vec<String> = tables.iter().map(Table::text).collect();
    format!(
        "{BEGIN}\n\
         Made by `cargo run --profile speed --offline --bin speed` in `differential/` on {}, on {}; {}; {}.\n\
         Each cell: **ratio** lower-upper quartile (ours : the original's, in nanoseconds a call); medians of {rounds} \
         rounds of {CALLS} calls, the ratio taken round by round, the sides by turns. The same calls in the same order on \
         all, the answers' sums equal; buffers are not cleared in between. Time includes the loop over the list of calls, \
         the same on all sides. The original is built for release as it stands, without overflow checks, and called \
         through `Rc<RefCell<dyn Mapper>>`; so is the wrapper's `BusBoard`, behind the very same trait. A checked call is \
         an exported function, which judges all that it is lent.\n\n\
         {}{END}",
        date(),
        processor(),
        env!("COMPILER"),
        library(),
        tables.join("\n")
    )
}

/// Today, by the system's clock.
fn date() -> String {
    let said = Command::new("date").args(["-u", "+%Y-%m-%d"]).output();
    said.map(|output| String::from_utf8_lossy(&output.stdout).trim().to_string()).unwrap_or_default()
}

/// As `lscpu` names it, since /proc/cpuinfo has no name for it on Arm.
fn processor() -> String {
    let said = Command::new("lscpu").output();
    let text = said.map(|output| String::from_utf8_lossy(&output.stdout).into_owned()).unwrap_or_default();
    let line = text.lines().find(|line| line.starts_with("Model name"));
    let name = line.and_then(|line| line.split(':').nth(1)).map_or("an unnamed processor", str::trim);
    name.to_string()
}

/// Which library is linked: the one that the repository keeps, with the toolchain that made it, or another.
fn library() -> String {
    if option_env!("BIEKKARUL_LIB").map_or(false, |folder| !folder.is_empty()) {
        return "another library than the one in `lib/` (`BIEKKARUL_LIB`)".into();
    }
    let file = Path::new(env!("CARGO_MANIFEST_DIR")).join("../lib/x86_64-linux/TOOLCHAIN");
    let toolchain = fs::read_to_string(file).unwrap_or_default();
    format!("the library in `lib/`, made by {}", toolchain.trim())
}

#[cfg(test)]
mod tests {
    use super::*;

    #[test]
    fn quartiles_of_the_rounds() {
        let theirs = [2.0; 5];
        let cell = Cell::of(&[5.0, 1.0, 2.0, 4.0, 3.0], &theirs);
        assert_eq!((cell.ours, cell.theirs, cell.ratio), (3.0, 2.0, [1.0, 1.5, 2.0]));
    }

    #[test]
    fn each_cell_over_its_goal_is_named() {
        let over = |ratio| Cell { ratio: [0.0, ratio, 9.0], ..Cell::default() };
        let mut table = Table { title: "", goals: WRAPPER_GOALS, rows: Default::default() };
        assert_eq!(
            table.verdict(),
            "Goals, at most (a) 0.5, (b) 0.5, (c1) 1.0, (c2) 4.0, (e) 0.7, (f) 0.7: met on every board."
        );
        table.rows[0][4] = over(100.0);
        table.rows[1][0] = over(0.5);
        table.rows[2][3] = over(4.01);
        table.rows[4][6] = over(0.71);
        assert_eq!(table.missed(), ["UxROM (c2) with 4.01", "MMC3 (f) with 0.71"]);
    }
}
