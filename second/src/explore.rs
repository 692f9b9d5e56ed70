//! Exhaustive exploration of tiny tables: every state reachable from an idle
//! machine over every release set that the waits allow, every time that a step
//! can take where steps may end early, and every legal choice.

mod packing;
mod rules;
mod set;
mod times;
mod tiny;

pub use packing::{most_live, Key, Packing};
pub use rules::{accepts, due_rounded_down, Rule};
pub use set::KeySet;
pub use times::{each_draw, new_jobs, off_cost, Times};
pub use tiny::{long_tables, small_tables};

use crate::graph::longest_chain;
use crate::legal::each_choice_by;
use crate::machine::*;
use crate::table::*;
use packing::CLOCK;

/// What was wrong, and the step in which it was seen.
#[derive(Clone, PartialEq, Eq, Debug)]
pub enum Wrong {
    /// A job missed its deadline.
    Miss(u8),
    /// A live job's longest unfinished chain exceeds its ticks left.
    Chain(u8),
    /// The next state doesn't fit.
    Misfit,
    /// A release left this task with no more live jobs than before.
    Lost(u8),
    /// A vertex ran while something remained of one from which a path leads
    /// to it.
    Early(u8),
}

/// One step of a run: the tasks released, which of their vertices take another
/// time than their cost, and the vertices run (none for a chain seen before the
/// choice).
#[derive(Clone, PartialEq, Eq, Debug)]
pub struct Step {
    pub releases: u16,
    pub off_cost: Vec<(Vertex, u32)>,
    pub ran: Vec<Vertex>,
}

/// What exploring one table found. `wrong` ends with its own step.
#[derive(Clone, PartialEq, Eq, Debug, Default)]
pub struct Found {
    pub states: u64,
    pub ticks: u64,
    pub chains_too_long: u64,
    /// Live jobs of a task at once, with a tick's releases made.
    pub most_live: usize,
    pub wrong: Option<(Wrong, Vec<Step>)>,
}

/// The lowest task with a live job whose longest unfinished chain exceeds its
/// ticks left, in a state with the tick's releases made.
pub fn chain_too_long(table: &Table, released: &State) -> Option<u8> {
    (0..table.n).find(|task| {
        let i = usize::from(*task);
        let (succ, v) = (&table.tasks[i].succ, usize::from(table.tasks[i].v));
        released.tasks[i].jobs().any(|(age, deadline)| {
            let chain = longest_chain(succ, released.rest(i, age), v);
            chain > u64::from(released.left(deadline))
        })
    })
}

/// The lowest task with no more live jobs after its release than before.
fn lost(state: &State, released: &State, releases: u16) -> Option<u8> {
    let live = |state: &State, i: usize| state.tasks[i].jobs().count();
    let named = (0..ENTRIES).filter(|i| releases >> i & 1 == 1);
    let lost = named.filter(|i| live(released, *i) != live(state, *i) + 1);
    lost.map(|i| i as u8).min()
}

/// The lowest task of which a vertex is to run too early: told by paths, not
/// by what is done.
pub fn runs_early(table: &Table, released: &State, ran: &[Vertex]) -> Option<u8> {
    let early = ran.iter().filter(|(task, age, vertex)| {
        let i = usize::from(*task);
        let rest = released.rest(i, usize::from(*age));
        (0..ENTRIES).any(|h| rest[h] > 0 && leads(&table.tasks[i], h, usize::from(*vertex)))
    });
    early.map(|(task, ..)| *task).min()
}

/// Whether a path of one edge or more leads from a vertex to another.
fn leads(task: &Task, from: usize, to: usize) -> bool {
    let next = (0..ENTRIES).filter(|h| task.succ[from] >> h & 1 == 1);
    next.into_iter().any(|h| h == to || leads(task, h, to))
}

/// How a run goes: which vertices wait and what they take; how a task's jobs
/// are kept; and what each state is asked.
#[derive(Clone, Copy)]
pub struct How {
    pub held: Held,
    pub times: Times,
    pub keeping: Keeping,
    pub fits: fn(&Table, &State) -> bool,
}

/// The machine as the documents have it, with stated costs.
pub const STATED: How = How {
    held: held_back,
    times: Times::Stated,
    keeping: OLDEST_FIRST,
    fits,
};

/// The same where steps may end early: a vertex that waits has its own time
/// left, not its whole cost.
pub const EARLY: How = How {
    times: Times::Early,
    fits: fits_but_for_work,
    ..STATED
};

/// Explores a tiny table wholly, or up to the first miss or misfit; then a
/// chain too long without a miss is what is wrong, if there is one. A chain
/// counts what truly remains.
pub fn explore(table: &Table, how: How, seen: &mut KeySet) -> Found {
    let packing = Packing::of(table, how.times).expect("a tiny table's states go into 128 bits");
    seen.clear();
    seen.insert(packing.pack(&State::zeros(CLOCK, Phase::Running)));
    let mut search = Search {
        table,
        how,
        packing,
        seen,
        parents: vec![0],
        found: Found::default(),
        chain: None,
    };
    let mut at = 0;
    while at < search.seen.len() && search.found.wrong.is_none() {
        search.expand(at);
        at += 1;
    }
    search.found.states = search.seen.len() as u64;
    if search.found.wrong.is_none() {
        if let Some((task, at, last)) = search.chain.take() {
            search.found.wrong = Some((Wrong::Chain(task), search.run_to(at, last)));
        }
    }
    search.found
}

struct Search<'a> {
    table: &'a Table,
    how: How,
    packing: Packing,
    seen: &'a mut KeySet,
    /// For each state in the order found, the one it was found from.
    parents: Vec<u32>,
    found: Found,
    chain: Option<(u8, usize, Step)>,
}

impl Search<'_> {
    /// Every tick from a state; stops at the first thing that is wrong.
    fn expand(&mut self, at: usize) {
        let (table, times) = (self.table, self.how.times);
        let state = self.packing.unpack(self.seen.key(at));
        for releases in release_sets(table, &state) {
            let mut released = release_by(table, &state, releases, self.how.keeping);
            if let Some(task) = lost(&state, &released, releases) {
                let last = self.step_of(&released, releases, &[]);
                self.found.wrong = Some((Wrong::Lost(task), self.run_to(at, last)));
                return;
            }
            let live = released.tasks.iter().map(|task| task.jobs().count());
            self.found.most_live = live.fold(self.found.most_live, usize::max);
            let whole = each_draw(table, &mut released, releases, times, |drawn| {
                self.look_at_chains(drawn, at, releases);
                self.choose(drawn, at, releases)
            });
            if !whole {
                return;
            }
        }
    }

    fn look_at_chains(&mut self, drawn: &State, at: usize, releases: u16) {
        if let Some(task) = chain_too_long(self.table, drawn) {
            self.found.chains_too_long += 1;
            if self.chain.is_none() {
                self.chain = Some((task, at, self.step_of(drawn, releases, &[])));
            }
        }
    }

    /// Every legal choice; false if something is wrong.
    fn choose(&mut self, drawn: &State, at: usize, releases: u16) -> bool {
        let table = self.table;
        each_choice_by(table, drawn, self.how.held, |ran| {
            let moved = go_on_by(table, drawn, releases, ran, self.how.keeping);
            self.found.ticks += 1;
            let early = runs_early(table, drawn, ran).map(Wrong::Early);
            let wrong = early.or_else(|| self.check(&moved, at));
            if let Some(wrong) = wrong {
                let run = self.run_to(at, self.step_of(drawn, releases, ran));
                self.found.wrong = Some((wrong, run));
            }
            self.found.wrong.is_none()
        })
    }

    /// Looks at a next state and keeps it if it is new.
    fn check(&mut self, moved: &Moved, from: usize) -> Option<Wrong> {
        if let Some(task) = moved.missed {
            return Some(Wrong::Miss(task));
        }
        if self.seen.insert(self.packing.pack(&moved.state)) {
            self.parents.push(from as u32);
            if !(self.how.fits)(self.table, &moved.state) {
                return Some(Wrong::Misfit);
            }
        }
        None
    }

    fn step_of(&self, drawn: &State, releases: u16, ran: &[Vertex]) -> Step {
        Step {
            releases,
            off_cost: off_cost(self.table, drawn, releases),
            ran: ran.to_vec(),
        }
    }

    /// The run from idle to a state, and then one step more.
    fn run_to(&self, at: usize, last: Step) -> Vec<Step> {
        let mut run = vec![last];
        let mut at = at;
        while at != 0 {
            let parent = self.parents[at] as usize;
            run.push(self.step(self.seen.key(parent), self.seen.key(at)));
            at = parent;
        }
        run.reverse();
        run
    }

    /// A step that leads from one state to another.
    fn step(&self, from: Key, to: Key) -> Step {
        let (table, how) = (self.table, self.how);
        let state = self.packing.unpack(from);
        let mut step = None;
        for releases in release_sets(table, &state) {
            let mut released = release_by(table, &state, releases, how.keeping);
            each_draw(table, &mut released, releases, how.times, |drawn| {
                each_choice_by(table, drawn, how.held, |ran| {
                    let moved = go_on_by(table, drawn, releases, ran, how.keeping);
                    if moved.missed.is_none() && self.packing.pack(&moved.state) == to {
                        step = Some(self.step_of(drawn, releases, ran));
                    }
                    step.is_none()
                })
            });
        }
        step.expect("a state was found by a step from its parent")
    }
}

/// Every set of tasks whose wait is 0.
pub fn release_sets(table: &Table, state: &State) -> impl Iterator<Item = u16> {
    let ready = (0..usize::from(table.n)).filter(|i| state.tasks[*i].wait == 0);
    let ready = ready.fold(0u16, |set, i| set | 1 << i);
    (0..=ready).filter(move |set| set & !ready == 0)
}
