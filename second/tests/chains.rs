//! The longest chain by name against a list of all chains, and the examples
//! of the reading D46 of docs/DECISIONS.md.

mod common;

use common::{onward, sum_of};
use second::chain::{longest_named, Chain};
use second::random::*;
use second::table::{Table, ENTRIES};
use second::*;

/// The first in the order of words of those with the largest sum.
fn by_listing(succ: &[u16; ENTRIES], costs: &[u32; ENTRIES], v: usize) -> Vec<u8> {
    let mut all = Vec::new();
    for h in 0..v as u8 {
        onward(succ, vec![h], &mut all);
    }
    let sum = |chain: &[u8]| sum_of(chain, costs);
    let most = all.iter().map(|chain| sum(chain)).max().unwrap();
    all.into_iter()
        .filter(|chain| sum(chain) == most)
        .min()
        .unwrap()
}

fn row<T: Copy + Default>(given: &[T]) -> [T; ENTRIES] {
    let mut row = [T::default(); ENTRIES];
    row[..given.len()].copy_from_slice(given);
    row
}

/// The chain of these costs and edges.
fn of(costs: &[u32], edges: &[(usize, usize)]) -> Vec<u8> {
    let mut succ = [0; ENTRIES];
    for (from, to) in edges {
        succ[*from] |= 1 << to;
    }
    let found = longest_named(&succ, &row(costs), costs.len());
    assert_eq!(found.list(), by_listing(&succ, &row(costs), costs.len()));
    assert!(found.vertices[found.list().len()..]
        .iter()
        .all(|h| *h == 255));
    found.list().to_vec()
}

#[test]
fn reading_c2() {
    assert_eq!(of(&[0, 3], &[(0, 1)]), [0, 1]);
    assert_eq!(of(&[3, 0], &[(0, 1)]), [0]);
    assert_eq!(of(&[0, 0], &[(0, 1)]), [0]);
    assert_eq!(of(&[2, 0, 1], &[(0, 1), (0, 2), (1, 2)]), [0, 1, 2]);
}

#[test]
fn equal_chains() {
    assert_eq!(of(&[2, 2], &[]), [0]);
    assert_eq!(of(&[1, 1, 2], &[(0, 1)]), [0, 1]);
    assert_eq!(of(&[2, 1, 1], &[(1, 2)]), [0]);
    assert_eq!(
        of(&[1, 2, 2, 1], &[(0, 2), (0, 1), (1, 3), (2, 3)]),
        [0, 1, 3]
    );
    assert_eq!(of(&[1, 1, 3], &[(2, 0), (0, 1)]), [2, 0, 1]);
}

/// Graphs whose edges go in any one order of the vertices, with costs from 0 on and many of them equal.
#[test]
fn all_chains() {
    let r = &mut Random::new(102);
    for _ in 0..4_000 {
        let v = r.below(7) + 1;
        let mut order: Vec<usize> = (0..v).collect();
        for i in 0..v {
            order.swap(i, r.below(v));
        }
        let costs: Vec<u32> = (0..v).map(|_| r.below(4) as u32).collect();
        let mut edges = Vec::new();
        for i in 0..v {
            for j in i + 1..v {
                if r.coin() {
                    edges.push((order[i], order[j]));
                }
            }
        }
        of(&costs, &edges);
    }
}

#[test]
fn sixteen_vertices_and_every_edge() {
    let edges: Vec<_> = (0..ENTRIES)
        .flat_map(|i| (i + 1..ENTRIES).map(move |j| (i, j)))
        .collect();
    assert_eq!(of(&[1; ENTRIES], &edges), (0..16).collect::<Vec<u8>>());
    assert_eq!(of(&[0; ENTRIES], &edges), [0]);
}

/// The verdict's chain is that of the task it names, on a refusal and on acceptance; an unreadable file has none.
#[test]
fn of_the_task_that_is_named() {
    let r = &mut Random::new(103);
    let mut met = [0; 3];
    for _ in 0..2_000 {
        let mut bytes = file(&near_edge(r, 4, 6, 30));
        if r.one_in(8) {
            damage(r, &mut bytes);
        }
        let found = read(&bytes);
        let answer = verdict(&bytes);
        let last = String::from_utf8(report(&bytes)).unwrap();
        let last = last.lines().last().unwrap().to_string();
        if found.number != 0 {
            assert_eq!(answer.chain, Chain::NONE);
            assert!(!last.contains("chain"));
            met[2] += 1;
            continue;
        }
        let table: Table = found.table;
        let k = usize::from(answer.task);
        let list = by_listing(
            &table.tasks[k].succ,
            table.costs_of(k),
            usize::from(table.tasks[k].v),
        );
        assert_eq!(answer.chain.list(), list);
        let words: Vec<String> = list.iter().map(|h| h.to_string()).collect();
        assert!(last.ends_with(&format!(
            " margin {} chain {}",
            answer.margin,
            words.join(" ")
        )));
        met[usize::from(answer.number == 0)] += 1;
    }
    assert!(met.iter().all(|times| *times > 50), "{met:?}");
}
