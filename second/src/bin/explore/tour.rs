//! Explores one table after the other, and tells what was found.

use crate::options::Options;
use second::explore::*;
use second::random::{tiny_fork, tiny_long, tiny_table, Random};
use second::sharp::sharp_figures;
use second::table::{Table, ENTRIES};
use second::verdict::{figures, Figures};
use std::time::{Duration, Instant};

/// What is done with each table; false to stop.
type Each<'a> = &'a mut dyn FnMut(&Table) -> bool;

/// Sums over all tables so far.
pub struct Tour {
    rule: Rule,
    how: How,
    processors: Option<u8>,
    begun: Instant,
    until: Option<Duration>,
    seen: KeySet,
    looked_at: u64,
    tables: u64,
    states: u64,
    ticks: u64,
    most: u64,
    most_live: usize,
    zero_margins: u64,
}

impl Tour {
    pub fn new(options: &Options) -> Tour {
        Tour {
            rule: options.rule,
            how: options.how,
            processors: options.processors,
            begun: Instant::now(),
            until: options.seconds.map(Duration::from_secs),
            seen: KeySet::new(),
            looked_at: 0,
            tables: 0,
            states: 0,
            ticks: 0,
            most: 0,
            most_live: 0,
            zero_margins: 0,
        }
    }

    fn over(&self) -> bool {
        self.until
            .is_some_and(|until| self.begun.elapsed() >= until)
    }

    /// All very small tables with numbers up to this; false if something is
    /// wrong, here and below.
    pub fn very_small(&mut self, most: u32) -> bool {
        self.all_of("numbers", most, |most, each| small_tables(most, each))
    }

    /// All very small tables with T up to this and D up to four times T.
    pub fn very_long(&mut self, most: u32) -> bool {
        self.all_of("T", most, |most, each| long_tables(most, each))
    }

    fn all_of(&mut self, what: &str, most: u32, tables: fn(u32, Each) -> bool) -> bool {
        let (looked_at, explored) = (self.looked_at, self.tables);
        let mut good = true;
        let whole = tables(most, &mut |table| {
            good = self.processors.is_some_and(|m| m != table.m) || self.visit(table);
            good && !self.over()
        });
        if good && most > 0 {
            let word = if whole { "all" } else { "the first" };
            let (count, tables) = (self.looked_at - looked_at, self.tables - explored);
            println!("{word} {count} very small tables ({what} up to {most}): {tables} accepted and explored");
        }
        good
    }

    /// So many random tiny tables that the rule accepts, half of them tight.
    pub fn random(&mut self, seed: u64, count: u64) -> bool {
        let mut r = Random::new(seed);
        let upto = self.tables + count;
        while self.tables < upto && !self.over() {
            let roomy = !r.one_in(4);
            let mut table = tiny_table(&mut r, roomy);
            table.m = self.processors.unwrap_or(table.m);
            if !accepts(self.rule, &table) {
                self.looked_at += 1;
                continue;
            }
            if r.coin() {
                tighten(&mut r, self.rule, &mut table);
            }
            if !self.visit(&table) {
                return false;
            }
        }
        true
    }

    /// So many random tables of a short job beside a long fork.
    pub fn forks(&mut self, seed: u64, count: u64) -> bool {
        let rule = self.rule;
        self.drawn(seed, count, |r| tiny_fork(r, |table| accepts(rule, table)))
    }

    /// So many random tables with a D of up to four times T.
    pub fn long(&mut self, seed: u64, count: u64) -> bool {
        let (rule, small) = (self.rule, self.how.times != Times::Stated);
        let most = if small { 2 } else { 4 };
        self.drawn(seed, count, |r| {
            tiny_long(r, most, |table| accepts(rule, table))
        })
    }

    fn drawn(&mut self, seed: u64, count: u64, draw: impl Fn(&mut Random) -> Table) -> bool {
        let mut r = Random::new(seed);
        let upto = self.tables + count;
        while self.tables < upto && !self.over() {
            if !self.visit(&draw(&mut r)) {
                return false;
            }
        }
        true
    }

    /// Explores a table if the rule accepts it; false if something is wrong.
    fn visit(&mut self, table: &Table) -> bool {
        self.looked_at += 1;
        if !accepts(self.rule, table) {
            return true;
        }
        let found = explore(table, self.how, &mut self.seen);
        self.tables += 1;
        self.states += found.states;
        self.ticks += found.ticks;
        self.most = self.most.max(found.states);
        self.most_live = self.most_live.max(found.most_live);
        self.zero_margins += u64::from(least_margin(self.rule, table) == 0);
        if let Some((wrong, run)) = &found.wrong {
            show(self.rule, table, wrong, run, &found);
            let spent = self.begun.elapsed().as_secs_f64();
            println!(
                "found in table {} of those accepted, {} looked at, after {spent:.3} s",
                self.tables, self.looked_at
            );
        }
        found.wrong.is_none()
    }

    pub fn sum_up(&self) {
        println!(
            "{} looked at; most states of a table {}, most live jobs of a task {}; {} tables with margin 0; {:.1} s",
            self.looked_at,
            self.most,
            self.most_live,
            self.zero_margins,
            self.begun.elapsed().as_secs_f64()
        );
        println!(
            "explored {} tables, {} states, {} ticks: no miss, no chain too long",
            self.tables, self.states, self.ticks
        );
    }
}

/// The figures that a rule goes by, or weakens.
fn figures_by(rule: Rule) -> fn(&Table, usize) -> Figures {
    if rule.is_sharp() {
        sharp_figures
    } else {
        figures
    }
}

fn least_margin(rule: Rule, table: &Table) -> i64 {
    let each = (0..usize::from(table.n)).map(|k| figures_by(rule)(table, k).margin);
    each.min().unwrap_or(0)
}

fn show(rule: Rule, table: &Table, wrong: &Wrong, run: &[Step], found: &Found) {
    println!("processors {} tasks {}", table.m, table.n);
    for i in 0..usize::from(table.n) {
        show_task(table, i);
    }
    for k in 0..usize::from(table.n) {
        let f = figures_by(rule)(table, k);
        println!("task {k} len {} due {} margin {}", f.len, f.due, f.margin);
    }
    for (tick, step) in run.iter().enumerate() {
        show_step(tick, step);
    }
    match wrong {
        Wrong::Miss(task) => println!("MISS: task {task}"),
        Wrong::Chain(task) => println!("CHAIN TOO LONG: task {task}"),
        Wrong::Misfit => println!("THE STATE DOESN'T FIT"),
        Wrong::Early(task) => println!("TOO EARLY: task {task}"),
        Wrong::Lost(task) => println!("A JOB LOST: task {task}"),
    }
    let chains = found.chains_too_long;
    println!("{chains} chains too long were seen in this table before that");
}

fn show_task(table: &Table, i: usize) {
    let task = &table.tasks[i];
    let v = usize::from(task.v);
    print!("task {i} D {} T {} costs", task.deadline, task.period);
    let costs = &table.costs_of(i)[..v];
    costs.iter().for_each(|cost| print!(" {cost}"));
    print!(" edges");
    for h in 0..v {
        let to = (0..ENTRIES).filter(|j| task.succ[h] >> j & 1 == 1);
        to.for_each(|j| print!(" {h}-{j}"));
    }
    println!();
}

fn show_step(tick: usize, step: &Step) {
    print!("tick {tick}: released");
    let named = (0..ENTRIES).filter(|i| step.releases >> i & 1 == 1);
    named.for_each(|i| print!(" {i}"));
    for ((i, age, h), ticks) in &step.off_cost {
        print!("; {i}.{age}.{h} takes {ticks}");
    }
    print!("; ran");
    let ran = step.ran.iter();
    ran.for_each(|(i, age, h)| print!(" {i}.{age}.{h}"));
    println!();
}

/// Raises costs one by one as long as the rule accepts, for tight tables.
fn tighten(r: &mut Random, rule: Rule, table: &mut Table) {
    for _ in 0..12 {
        let i = r.below(usize::from(table.n));
        let at = ENTRIES * i + r.below(usize::from(table.tasks[i].v));
        let was = table.costs[at];
        table.costs[at] = (was + 1).min(6);
        if !accepts(rule, table) {
            table.costs[at] = was;
        }
    }
}
