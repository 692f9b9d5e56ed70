//! Cycles and longest chains, on successor bits.

use crate::table::ENTRIES;

/// The bits of the first v vertices (v at most 16).
#[inline]
pub fn first(v: usize) -> u16 {
    ((1u32 << v) - 1) as u16
}

/// Takes away those of the first v vertices that have no successor among
/// those left, one after the other, until none is left or none can be taken;
/// each as it goes is given to `taken`. What is left is on a cycle or leads
/// into one.
#[inline]
pub fn take_away(succ: &[u16; ENTRIES], v: usize, mut taken: impl FnMut(usize)) -> u16 {
    let mut left = first(v);
    loop {
        let before = left;
        for h in (0..v).rev() {
            if left >> h & 1 == 1 && succ[h] & left == 0 {
                left &= !(1 << h);
                taken(h);
            }
        }
        if left == 0 || left == before {
            return left;
        }
    }
}

/// Whether some path of the first v vertices leads back to its start.
#[inline]
pub fn has_cycle(succ: &[u16; ENTRIES], v: usize) -> bool {
    take_away(succ, v, |_| ()) != 0
}

/// The largest sum of `amounts` along a chain of edges of the first v
/// vertices; one vertex is a chain. Without cycles every vertex is counted;
/// vertices that lead into a cycle are passed over.
#[inline]
pub fn longest_chain(succ: &[u16; ENTRIES], amounts: &[u32; ENTRIES], v: usize) -> u64 {
    let mut tail = [0u64; ENTRIES];
    let mut longest = 0;
    take_away(succ, v, |h| {
        tail[h] = u64::from(amounts[h]) + largest(&tail, succ[h] & first(v));
        longest = longest.max(tail[h]);
    });
    longest
}

#[inline]
fn largest(tail: &[u64; ENTRIES], mut among: u16) -> u64 {
    let mut most = 0;
    while among != 0 {
        most = most.max(tail[among.trailing_zeros() as usize]);
        among &= among - 1;
    }
    most
}
