//! The quick answer is yes exactly if the full verdict's number is 0.

use second::examples::TABLE_A;
use second::random::*;
use second::table::MOST_TICKS;
use second::*;

/// How many were yes, and how many no.
#[derive(Default)]
struct Answers {
    yes: u32,
    no: u32,
}

impl Answers {
    fn agree(&mut self, bytes: &[u8]) {
        let answer = quick(bytes);
        assert_eq!(answer, verdict(bytes).number == 0);
        self.yes += u32::from(answer);
        self.no += u32::from(!answer);
    }
}

#[test]
fn tables_and_damage() {
    let r = &mut Random::new(41);
    let mut answers = Answers::default();
    for _ in 0..3_000 {
        let n = r.below(16) + 1;
        let most = r.below(8) + 1;
        answers.agree(&file(&table_sized(r, n, most)));
        let mut bytes = file(&tiny_table(r, true));
        answers.agree(&bytes);
        damage(r, &mut bytes);
        answers.agree(&bytes);
    }
    assert!(answers.yes > 500 && answers.no > 3_000);
}

#[test]
fn tables_near_the_edge() {
    let r = &mut Random::new(42);
    let mut answers = Answers::default();
    for _ in 0..3_000 {
        let n = r.below(6) + 1;
        let scale = r.pick(&[20, 100, 5_000, MOST_TICKS]);
        answers.agree(&file(&near_edge(r, n, 6, scale)));
    }
    assert!(answers.yes > 1_000 && answers.no > 1_000);
}

#[test]
fn table_a_whole_cut_and_with_one_processor() {
    let mut bytes = TABLE_A.to_vec();
    assert!(quick(&bytes));
    assert!((0..bytes.len()).all(|length| !quick(&bytes[..length])));
    bytes[2] = 1;
    assert!(!quick(&bytes));
}
