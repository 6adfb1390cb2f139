//! The rows of a run: timed, printed, and held against the ratios that an
//! earlier run stored.

use std::collections::BTreeMap;
use std::fmt::Debug;
use std::fs;
use std::hint::black_box;
use std::time::{Duration, Instant};

/// The stored ratios: a line for each row, its name and its ratio.
const STORED: &str = concat!(env!("CARGO_MANIFEST_DIR"), "/bench.expected");

/// A row fell where less than this is left of its stored ratio.
pub const KEPT: f64 = 0.85;

/// Rounds in which the two take turns; the quickest of each counts.
pub const ROUNDS: usize = 40;

/// How often as many rounds are made before a row is said to have fallen.
const TRIES: usize = 3;

/// How long one of them is timed in a round, at the least.
const ROUND: Duration = Duration::from_millis(3);

pub struct Sheet {
    stored: BTreeMap<String, f64>,
    /// The ratios of this run, in the order of its rows.
    ratios: Vec<(String, f64)>,
}

impl Sheet {
    /// A sheet with what is stored. A line without a name and a ratio stores
    /// nothing.
    pub fn new() -> Self {
        let text = fs::read_to_string(STORED).unwrap_or_default();
        let stored = text.lines().filter_map(|line| {
            let (name, ratio) = line.split_once(' ')?;
            Some((name.to_string(), ratio.parse().ok()?))
        });
        Self {
            stored: stored.collect(),
            ratios: Vec::new(),
        }
    }

    /// Times both, which have to answer the same, and prints the row.
    pub fn side_by_side<T: Debug + PartialEq>(
        &mut self,
        name: &str,
        mut ours: impl FnMut() -> T,
        mut theirs: impl FnMut() -> T,
    ) {
        assert_eq!(ours(), theirs(), "{name}");
        let calls = calls_in_a_round(&mut ours).max(calls_in_a_round(&mut theirs));
        let (mut our_best, mut their_best) = (f64::INFINITY, f64::INFINITY);
        for _ in 0..TRIES {
            for _ in 0..ROUNDS {
                our_best = our_best.min(time(&mut ours, calls));
                their_best = their_best.min(time(&mut theirs, calls));
            }
            if !self.fell(name, their_best / our_best) {
                break;
            }
        }
        let ratio = their_best / our_best;
        let remark = self.remark(name, ratio);
        println!("{name} ours {our_best:.0} rust {their_best:.0} ratio {ratio:.2} {remark}");
        self.ratios.push((name.to_string(), ratio));
    }

    fn fell(&self, name: &str, ratio: f64) -> bool {
        let stored = self.stored.get(name);
        stored.is_some_and(|stored| ratio < KEPT * stored)
    }

    /// What is left of the stored ratio.
    fn remark(&self, name: &str, ratio: f64) -> String {
        let Some(stored) = self.stored.get(name) else {
            return "no stored ratio".to_string();
        };
        let mark = if self.fell(name, ratio) { " FELL" } else { "" };
        format!("{:.2} of {stored:.2}{mark}", ratio / stored)
    }

    /// Prints which stored rows are gone, and how many rows fell.
    pub fn finish(&self) {
        for name in self.stored.keys() {
            if !self.ratios.iter().any(|(timed, _)| timed == name) {
                println!("{name} is stored and was not timed");
            }
        }
        let fell = self
            .ratios
            .iter()
            .filter(|(name, ratio)| self.fell(name, *ratio));
        println!("{} of {} rows FELL", fell.count(), self.ratios.len());
    }

    /// Stores this run's ratios for later ones.
    pub fn store(&self) {
        let line = |(name, ratio): &(String, f64)| format!("{name} {ratio:.2}\n");
        let text: String = self.ratios.iter().map(line).collect();
        fs::write(STORED, text).expect("the ratios can be stored");
        println!("the ratios of this run are stored");
    }
}

fn calls_in_a_round<T>(call: &mut impl FnMut() -> T) -> u32 {
    let mut calls = 1;
    while time(call, calls) * f64::from(calls) < ROUND.as_nanos() as f64 {
        calls *= 2;
    }
    calls
}

/// Nanoseconds of one call.
fn time<T>(call: &mut impl FnMut() -> T, calls: u32) -> f64 {
    let begin = Instant::now();
    for _ in 0..calls {
        black_box(call());
    }
    begin.elapsed().as_nanos() as f64 / f64::from(calls)
}
