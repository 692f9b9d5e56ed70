//! Steps with times of their own (document 02, M-108): at a release every vertex
//! draws one. The scheduler's choice is never told it: it sees only what has
//! ended.

use crate::machine::{job_at, rest_at, summed, State, Vertex};
use crate::table::*;

/// What the vertices of a job may take; 0 in any case where the cost is 0.
#[derive(Clone, Copy, PartialEq, Eq, Debug)]
pub enum Times {
    /// Their costs.
    Stated,
    /// From 1 to the cost.
    Early,
    /// From 1 to one tick more than the cost: what no yes covers.
    Late,
}

impl Times {
    /// The most that a vertex of this cost may take.
    pub fn most(self, cost: u32) -> u32 {
        cost + u32::from(self == Times::Late && cost > 0)
    }
}

/// Calls `each` with a state, its releases made, for every time that each
/// vertex released can have; stops when `each` says false. Gives whether it
/// went through to the end.
pub fn each_draw(
    table: &Table,
    released: &mut State,
    releases: u16,
    times: Times,
    mut each: impl FnMut(&State) -> bool,
) -> bool {
    if times == Times::Stated {
        return each(released);
    }
    let most: Vec<_> = draws(table, released, releases, times)
        .map(|(vertex, most)| (rest_at(vertex), most))
        .collect();
    for (at, most) in &most {
        released.remaining[*at] = *most;
    }
    loop {
        for (task, age) in new_jobs(table, released, releases) {
            released.work[job_at(task, age)] = summed(released.rest(task, age));
        }
        if !each(released) {
            return false;
        }
        if !next_draw(released, &most) {
            return true;
        }
    }
}

/// Task and age place of each job that was released in this tick: it has all of
/// D left.
pub fn new_jobs(table: &Table, released: &State, releases: u16) -> Vec<(usize, usize)> {
    let named = (0..ENTRIES).filter(|i| releases >> i & 1 == 1);
    let age = |i: usize| {
        let deadline = released.clock.wrapping_add(table.tasks[i].deadline);
        let mut jobs = released.tasks[i].jobs();
        jobs.find(|job| job.1 == deadline).map(|job| (i, job.0))
    };
    named.filter_map(age).collect()
}

/// The vertices released that have a choice of times, each with the most that
/// it may take.
fn draws(
    table: &Table,
    released: &State,
    releases: u16,
    times: Times,
) -> impl Iterator<Item = (Vertex, u32)> {
    let mut all = Vec::new();
    for (i, age) in new_jobs(table, released, releases) {
        let costs = table.costs_of(i).iter().enumerate();
        all.extend(costs.map(|(h, cost)| ((i as u8, age as u8, h as u8), times.most(*cost))));
    }
    all.into_iter().filter(|(_, most)| *most > 1)
}

/// One tick less for the first vertex that has one to spare; those before it
/// go back to the most.
fn next_draw(drawn: &mut State, most: &[(usize, u32)]) -> bool {
    for (at, most) in most {
        if drawn.remaining[*at] > 1 {
            drawn.remaining[*at] -= 1;
            return true;
        }
        drawn.remaining[*at] = *most;
    }
    false
}

/// The vertices released that take another time than their cost, and what they
/// take.
pub fn off_cost(table: &Table, drawn: &State, releases: u16) -> Vec<(Vertex, u32)> {
    let all = draws(table, drawn, releases, Times::Late);
    let taken = all.map(|(vertex, _)| (vertex, drawn.remaining[rest_at(vertex)]));
    let cost = |(i, _, h): Vertex| table.costs[ENTRIES * usize::from(i) + usize::from(h)];
    taken
        .filter(|(vertex, rest)| *rest != cost(*vertex))
        .collect()
}
