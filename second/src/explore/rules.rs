//! Rules that say which tables count as accepted: the two verdicts, and weaker
//! ones that must let a miss through.

use crate::sharp::{all_tails, part_by_the_word, sharp_due, Share};
use crate::table::Table;
use crate::verdict::{figures, figures_with, judge};

/// Which tables count as accepted.
#[derive(Clone, Copy, PartialEq, Eq, Debug)]
pub enum Rule {
    /// Document 01's verdict.
    Verdict,
    /// Every table.
    SayYes,
    /// Margins down to -1 pass: a miss is found on one processor only.
    MarginLess,
    /// Margins down to -m pass: a miss is found for each m.
    MarginLessM,
    /// D over T rounded down.
    RoundDown,
    /// The sharp verdict (document 02, M-107).
    Sharp,
    /// The same with tails that count the vertex itself.
    SharpOwnTail,
    /// The same with the first round (h = 0) alone.
    SharpFirst,
    /// The same without 22: a miss is found on one processor only.
    SharpNo22,
}

impl Rule {
    /// Whether it is the sharp verdict or a weaker form of it.
    pub fn is_sharp(self) -> bool {
        use Rule::*;
        matches!(self, Sharp | SharpOwnTail | SharpFirst | SharpNo22)
    }
}

/// Whether a rule accepts a table that the reader gave.
pub fn accepts(rule: Rule, table: &Table) -> bool {
    let least = |margin: fn(&Table, usize) -> i64| {
        let margins = (0..usize::from(table.n)).map(|k| margin(table, k));
        margins.min().unwrap_or(0)
    };
    match rule {
        Rule::Verdict => judge(table).number == 0,
        Rule::SayYes => true,
        Rule::MarginLess => least(|table, k| figures(table, k).margin) >= -1,
        Rule::MarginLessM => least(|table, k| figures(table, k).margin) >= -i64::from(table.m),
        Rule::RoundDown => least(margin_rounded_down) >= 0,
        Rule::Sharp => sharp_by(table, part_by_the_word, within),
        Rule::SharpOwnTail => sharp_by(table, with_itself, within),
        Rule::SharpFirst => sharp_by(table, first_round, within),
        Rule::SharpNo22 => sharp_by(table, part_by_the_word, |_, _| true),
    }
}

/// The error that looks right: D_k over T_i rounded down.
pub fn due_rounded_down(table: &Table, k: usize) -> i64 {
    let window = table.tasks[k].deadline;
    let used = (0..usize::from(table.n)).map(|i| {
        let vol: i64 = table.costs_of(i).iter().map(|c| i64::from(*c)).sum();
        i64::from(window / table.tasks[i].period) * vol
    });
    used.sum()
}

fn margin_rounded_down(table: &Table, k: usize) -> i64 {
    let right = figures(table, k);
    right.margin + right.due - due_rounded_down(table, k)
}

/// A sharp verdict of 0 by any count of what a vertex adds and any rule for the
/// longest chain of a task.
fn sharp_by(table: &Table, part: fn(Share) -> i64, chain: fn(i64, i64) -> bool) -> bool {
    let tails = all_tails(table);
    (0..usize::from(table.n)).all(|k| {
        let due = sharp_due(table, &tails, k, part);
        let found = figures_with(table, k, 0, due);
        found.margin >= 0 && chain(found.len, i64::from(table.tasks[k].deadline))
    })
}

/// A longest chain and D: not 22.
fn within(len: i64, deadline: i64) -> bool {
    len <= deadline
}

/// The error that looks right: the tail as the chain from the vertex on.
fn with_itself(share: Share) -> i64 {
    part_by_the_word(Share {
        tail: share.tail + share.cost,
        ..share
    })
}

/// The error that looks right: one job of each task within the window.
fn first_round(share: Share) -> i64 {
    share.cost.min((share.window - share.tail).max(0))
}
