//! Counts: answers by function and number, those of batches by the records done and those of sweeps by what was deleted, and
//! how far cases were compared.

use std::collections::BTreeMap;

use crate::{
    answer::{self, NOT_ERASED, POWER_LOST},
    case::Case,
    compare::{Judged, Scope},
    op::{Layer, Op, ALL},
};

/// A row of the batches' table: its place and its name.
type Done = (usize, &'static str);

const DONE: [(u64, &str); 7] =
    [(0, "0"), (1, "1"), (2, "2"), (3, "3"), (15, "4 to 15"), (63, "16 to 63"), (u64::MAX, "64")];

/// The row of so many records.
fn done(records: u64) -> Done {
    let row = DONE.iter().position(|&(most, _)| records <= most).unwrap();
    (row, DONE[row].1)
}

/// A row of the sweeps' table: whether twins were deleted, and whether objects that nothing refers to were.
type Deleted = [bool; 2];

fn deleted(values: &[u64]) -> Deleted {
    [values[0] > 0, values[1] > 0]
}

fn deleted_name(row: Deleted) -> &'static str {
    match row {
        [false, false] => "none",
        [false, true] => "unreferred",
        [true, false] => "twins",
        [true, true] => "twins and unreferred",
    }
}

/// How often each number was answered; the numbers have places up to 15.
type Counts = [u64; 16];

/// One row a name, one column a number that has a name; 10, which comes under the strict mark only, where it was met.
fn table<'a>(head: &str, rows: impl Iterator<Item = (String, &'a Counts)>) -> String {
    let rows: Vec<(String, &Counts)> = rows.collect();
    let met = rows.iter().any(|(_, counts)| counts[NOT_ERASED as usize] > 0);
    let columns: Vec<(u8, &str)> = answer::NAMES.into_iter().filter(|&(n, _)| met || n != NOT_ERASED).collect();
    let mut text = format!("| {head} |");
    for (number, name) in &columns {
        text += &format!(" {number} {name} |");
    }
    text += "\n|---|";
    text += &"---:|".repeat(columns.len());
    for (name, counts) in rows {
        text += &format!("\n| {name} |");
        for &(number, _) in &columns {
            let count = counts[number as usize];
            text += &if count == 0 { " |".to_string() } else { format!(" {count} |") };
        }
    }
    text + "\n"
}

#[derive(Default)]
pub struct Tally {
    answers: BTreeMap<Op, Counts>,
    /// of batches, by how many records were done
    batches: BTreeMap<Done, Counts>,
    /// of sweeps, by what was deleted
    sweeps: BTreeMap<Deleted, Counts>,
    /// compared with text, model and library
    three: u64,
    /// compared text with model, the library not linked
    text: u64,
    /// compared model with library, and why the text was not asked
    reasons: BTreeMap<&'static str, u64>,
    pub cases: u64,
}

impl Tally {
    pub fn count(&mut self, case: &Case, judged: &Judged) {
        self.cases += 1;
        let answer = judged.model.answer as usize % 16;
        self.answers.entry(case.op).or_default()[answer] += 1;
        if case.op.signature().layer == Layer::Batch {
            self.batches.entry(done(judged.model.values[0])).or_default()[answer] += 1;
        }
        if case.op.signature().layer == Layer::Sweep {
            self.sweeps.entry(deleted(&judged.model.values)).or_default()[answer] += 1;
        }
        match (judged.scope, &judged.library) {
            (Scope::Everything, Some(_)) => self.three += 1,
            (Scope::Everything, None) => self.text += 1,
            (Scope::Answer(reason) | Scope::Nothing(reason), _) => *self.reasons.entry(reason).or_default() += 1,
        }
    }

    pub fn of(&self, op: Op) -> Counts {
        self.answers.get(&op).copied().unwrap_or_default()
    }

    /// Batches that ended with a number after so many records, or one of the few counts that are put together with it.
    pub fn of_batches(&self, records: u64) -> Counts {
        self.batches.get(&done(records)).copied().unwrap_or_default()
    }

    /// Sweeps that ended with a number after such numbers of twins and of objects that nothing refers to.
    pub fn of_sweeps(&self, values: [u64; 2]) -> Counts {
        self.sweeps.get(&deleted(&values)).copied().unwrap_or_default()
    }

    /// What is wrong with a run under the strict mark: a function of the layers that can meet 10 did not, or was not done or not
    /// cut beside that; or one that cannot meet it did.
    pub fn strict(&self, layers: &[Layer]) -> Result<(), String> {
        for &op in ALL.iter().filter(|op| layers.contains(&op.signature().layer)) {
            let counts = self.of(op);
            let wanted: &[u8] = if op.can_meet_programmed() { &[0, POWER_LOST, NOT_ERASED] } else { &[] };
            if let Some(number) = wanted.iter().find(|&&number| counts[number as usize] == 0) {
                return Err(format!("{} never met {}", op.name(), answer::show(*number)));
            }
            if !op.can_meet_programmed() && counts[NOT_ERASED as usize] > 0 {
                return Err(format!("{} met {}", op.name(), answer::show(NOT_ERASED)));
            }
        }
        Ok(())
    }

    /// The tables of answers as Markdown.
    pub fn markdown(&self) -> String {
        let functions = self.answers.iter().map(|(op, counts)| (format!("`{}`", op.name()), counts));
        let mut text = table("function", functions);
        if !self.batches.is_empty() {
            let batches = self.batches.iter().map(|((_, name), counts)| (name.to_string(), counts));
            text += &format!("\n{}", table("records of a batch done", batches));
        }
        if !self.sweeps.is_empty() {
            let sweeps = self.sweeps.iter().map(|(&row, counts)| (deleted_name(row).to_string(), counts));
            text += &format!("\n{}", table("objects deleted by a sweep", sweeps));
        }
        text
    }

    /// How far the cases were compared.
    pub fn scope(&self) -> String {
        let mut text = format!("{} cases\n", self.cases);
        text += &format!("- {} compared three ways (model, text, library)\n", self.three);
        text += &format!("- {} compared model with text (library not linked)\n", self.text);
        for (reason, count) in &self.reasons {
            text += &format!("- {count} not compared with the whole of the text: {reason}\n");
        }
        text
    }
}
