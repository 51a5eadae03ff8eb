//! How many cases have each verdict.
use std::collections::BTreeMap;

const LEFT: &str = "left over";

#[derive(Default)]
pub struct Tally(BTreeMap<String, u64>);

impl Tally {
    pub fn count(&mut self, verdict: &str) {
        match self.0.get_mut(verdict) {
            Some(n) => *n += 1,
            None => {
                self.0.insert(verdict.to_string(), 1);
            }
        }
    }

    pub fn count_left(&mut self) {
        self.count(LEFT);
    }

    pub fn left(&self) -> u64 {
        self.0.get(LEFT).copied().unwrap_or(0)
    }

    /// To the process that started this one.
    pub fn hand_over(&self) {
        for (verdict, n) in &self.0 {
            println!("{n} {verdict}");
        }
    }

    pub fn take_over(&mut self, lines: &[u8]) {
        for line in String::from_utf8_lossy(lines).lines() {
            let (n, verdict) = line.split_once(' ').expect("a count and a verdict");
            *self.0.entry(verdict.to_string()).or_default() += n.parse::<u64>().expect("a count");
        }
    }

    pub fn show(&self) {
        for (verdict, n) in self.0.iter().filter(|(verdict, _)| *verdict != LEFT) {
            println!("  {verdict:<60} {n:>9}");
        }
        println!("  {LEFT:<60} {:>9}", self.left());
    }
}
