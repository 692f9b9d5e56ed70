//! Age places: where a task's new job goes, and what becomes of the place of
//! one that has ended. Beside the documents' way there are errors that look
//! right, for the explorer.

use super::State;
use crate::table::AGES;

/// How the jobs of a task are kept.
#[derive(Clone, Copy)]
pub struct Keeping {
    /// Makes room for a new job of a task; gives its age place.
    pub make_room: fn(&mut State, usize) -> usize,
    /// What is done with the age place of a task's job that has ended.
    pub give_up: fn(&mut State, usize, usize),
}

/// The documents' way: oldest first, and a job's end closes its gap.
pub const OLDEST_FIRST: Keeping = Keeping {
    make_room: behind_the_newest,
    give_up: close_gap,
};

/// In a fitting state a task with wait 0 has at most three live jobs: the
/// newest has at most D - T ticks left, that is 3 T, and the oldest of four
/// has 3 T less, which leaves it none.
fn behind_the_newest(state: &mut State, task: usize) -> usize {
    let free = state.tasks[task].deadlines.iter().position(Option::is_none);
    free.expect("a fifth place is never needed")
}

fn close_gap(state: &mut State, task: usize, age: usize) {
    for later in age + 1..AGES {
        state.copy_job(task, later, later - 1);
    }
    state.clear_job(task, AGES - 1);
}

/// An error: a job's end leaves its gap.
pub const GAPS_LEFT: Keeping = Keeping {
    make_room: behind_the_newest,
    give_up: State::clear_job,
};

/// An error: age place 0 is the newest.
pub const NEWEST_FIRST: Keeping = Keeping {
    make_room: before_the_newest,
    give_up: close_gap,
};

fn before_the_newest(state: &mut State, task: usize) -> usize {
    for age in (1..AGES).rev() {
        state.copy_job(task, age - 1, age);
    }
    0
}

/// An error: of three places the fourth release takes the oldest's.
pub const THREE_PLACES: Keeping = Keeping {
    make_room: over_the_oldest::<3>,
    give_up: close_gap,
};

/// No error, for no fifth release comes: it would take the oldest's place.
pub const FIFTH_OVER_OLDEST: Keeping = Keeping {
    make_room: over_the_oldest::<AGES>,
    give_up: close_gap,
};

fn over_the_oldest<const PLACES: usize>(state: &mut State, task: usize) -> usize {
    if state.tasks[task].jobs().count() == PLACES {
        close_gap(state, task, 0);
    }
    behind_the_newest(state, task)
}
