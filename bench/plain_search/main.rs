//! Searches for a model of a formula, or a refutation, with a ledger that counts lines and keeps none.

#[macro_use]
mod kit;
mod cnf_formula;
mod conflict_analysis;
mod decision_order;
mod ledger_rules;
mod sat_core;
mod sleeping_clauses;
mod trail_core;

mod outer_ports {
    pub enum ShelfFault {
        Failed,
        OutOfMemory,
    }
}

use cnf_formula::{Formula, Lit, ProofLine};
use kit::Global;
use ledger_rules::{Ledger, LedgerFault, LedgerView};
use sat_core::SatAnswer;
use std::io::Read;
use std::sync::atomic::{AtomicU64, Ordering};

static COUNTS: [AtomicU64; 4] = [const { AtomicU64::new(0) }; 4];

/// Counts a step of a kind, from the one thread that there is.
fn count(kind: usize) {
    let counted = COUNTS[kind].load(Ordering::Relaxed);
    COUNTS[kind].store(counted + 1, Ordering::Relaxed);
}

struct Counted {
    learned: u32,
    limit: u32,
}

impl LedgerView for Counted {
    fn room(&self) -> bool {
        self.learned < self.limit
    }
}

impl<T> Ledger<T> for Counted {
    fn learn(&mut self, _: &mut T, _: &ProofLine) -> Result<(), LedgerFault> {
        self.learned += 1;
        Ok(())
    }

    fn close(&mut self, _: &mut T, _: &ProofLine) -> Result<(), LedgerFault> {
        Ok(())
    }
}

extern "C" {
    fn clock_gettime(clock: i32, time: *mut [i64; 2]) -> i32;
}

/// The seconds that the processor spent on this process.
fn seconds() -> f64 {
    let mut time = [0; 2];
    unsafe { clock_gettime(2, &mut time) };
    time[0] as f64 + time[1] as f64 * 1e-9
}

/// The formula of a text in DIMACS, which is to be right.
fn formula_of(text: &str) -> Formula {
    let mut lines = text.lines().filter(|line| !line.starts_with('c'));
    let vars = lines.next().unwrap().split_whitespace().nth(2).unwrap();
    let mut formula = Formula::new(Global, vars.parse().unwrap());
    let mut lits = std::vec::Vec::new();
    for word in lines.flat_map(|line| line.split_whitespace()) {
        match word.parse::<i64>().unwrap() {
            0 => {
                formula.add(&lits).unwrap();
                lits.clear();
            }
            number => lits.push(Lit::new(number.unsigned_abs() as u32, number > 0)),
        }
    }
    formula
}

fn main() {
    let limit = std::env::args().nth(1).unwrap().parse().unwrap();
    let mut text = String::new();
    std::io::stdin().read_to_string(&mut text).unwrap();
    let formula = formula_of(&text);
    let mut ledger = Counted { learned: 0, limit };
    let begun = seconds();
    let answer = sat_core::solve(Global, &formula, &mut ledger, &mut ()).unwrap();
    let spent = seconds() - begun;
    let word = match answer {
        SatAnswer::Model(values) if formula.holds(&values) => "model",
        SatAnswer::Model(_) => "wrong",
        SatAnswer::Refuted => "refuted",
        SatAnswer::Spent => "unknown",
    };
    let counts = COUNTS.iter().map(|it| format!(" {}", it.load(Ordering::Relaxed)));
    println!("{word} {} {spent}{}", ledger.learned, counts.collect::<String>());
}
