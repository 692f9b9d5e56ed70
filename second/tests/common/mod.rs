//! What several tests tell plainly: all chains of a graph, and their sums.

use second::table::ENTRIES;

/// Every chain that begins with this one, itself among them.
pub fn onward(succ: &[u16; ENTRIES], chain: Vec<u8>, all: &mut Vec<Vec<u8>>) {
    let last = usize::from(*chain.last().unwrap());
    for w in (0..ENTRIES as u8).filter(|w| succ[last] >> w & 1 == 1) {
        let mut longer = chain.clone();
        longer.push(w);
        onward(succ, longer, all);
    }
    all.push(chain);
}

/// The costs along a chain.
pub fn sum_of(chain: &[u8], costs: &[u32; ENTRIES]) -> u64 {
    let along = chain.iter().map(|h| u64::from(costs[usize::from(*h)]));
    along.sum()
}
