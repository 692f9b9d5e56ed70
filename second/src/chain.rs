//! The longest chain by name: of equal chains the one whose list is first.

use crate::graph::take_away;
use crate::table::ENTRIES;

/// A chain's vertices in path order, at the front of sixteen places; the
/// others are 255.
#[derive(Clone, Copy, PartialEq, Eq, Debug)]
pub struct Chain {
    pub count: u8,
    pub vertices: [u8; ENTRIES],
}

impl Chain {
    /// No chain.
    pub const NONE: Chain = Chain {
        count: 0,
        vertices: [255; ENTRIES],
    };

    /// Its vertices.
    pub fn list(&self) -> &[u8] {
        &self.vertices[..usize::from(self.count)]
    }

    /// A vertex, and this behind it.
    fn behind(&self, h: usize) -> Chain {
        let mut chain = Chain::NONE;
        chain.count = self.count + 1;
        chain.vertices[0] = h as u8;
        chain.vertices[1..usize::from(chain.count)].copy_from_slice(self.list());
        chain
    }
}

/// A chain and its sum.
type Summed = (u64, Chain);

/// The larger sum; of equal sums the list that comes first in the order of
/// words, where a word comes before those that it begins.
fn better(one: Summed, other: Summed) -> Summed {
    let later = one.0 == other.0 && other.1.list() < one.1.list();
    if one.0 < other.0 || later {
        other
    } else {
        one
    }
}

/// The longest chain of the first v vertices, which have no cycle: for each
/// vertex the best that begins there, made of the best of its successors, or
/// of nothing.
pub fn longest_named(succ: &[u16; ENTRIES], amounts: &[u32; ENTRIES], v: usize) -> Chain {
    let mut best = [(0, Chain::NONE); ENTRIES];
    take_away(succ, v, |h| {
        let next = (0..v).filter(|w| succ[h] >> w & 1 == 1);
        let rest = next.map(|w| best[w]).fold((0, Chain::NONE), better);
        best[h] = (u64::from(amounts[h]) + rest.0, rest.1.behind(h));
    });
    let all = best[..v].iter().copied();
    all.reduce(better).map_or(Chain::NONE, |found| found.1)
}
