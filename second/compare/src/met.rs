//! What the calls of a test have met, counted: a number never met fails it.

use flat::Reply;
use std::collections::{BTreeMap, BTreeSet};

pub const RULES: [u8; 8] = [22, 28, 34, 36, 44, 47, 49, 55];

#[derive(Clone, Default)]
pub struct Met {
    numbers: BTreeMap<u32, usize>,
    rules: BTreeMap<u8, usize>,
    /// The rules of a call, in order.
    chains: BTreeSet<Vec<u8>>,
}

impl Met {
    pub fn number(&mut self, number: u32) {
        *self.numbers.entry(number).or_default() += 1;
    }

    pub fn put(&mut self, (reply, fired): &(Reply, Vec<u8>)) {
        self.number(reply.number);
        for &line in fired {
            *self.rules.entry(line).or_default() += 1;
        }
        if !self.chains.contains(fired) {
            self.chains.insert(fired.clone());
        }
    }

    pub fn count(&self, number: u32) -> usize {
        self.numbers.get(&number).copied().unwrap_or(0)
    }

    /// Prints the counts; each of these numbers, and no other, must have been met.
    pub fn check_numbers(&self, what: &str, numbers: impl IntoIterator<Item = u32>) {
        println!("{what}: answers {:?}", self.numbers);
        let met: Vec<u32> = self.numbers.keys().copied().collect();
        assert_eq!(met, Vec::from_iter(numbers), "the numbers met");
    }

    /// And every rule must have fired.
    pub fn check(&self, what: &str, numbers: impl IntoIterator<Item = u32>) {
        self.check_numbers(what, numbers);
        println!(
            "{what}: rules {:?}, {} chains of them",
            self.rules,
            self.chains.len()
        );
        assert!(self.rules.keys().eq(&RULES), "a rule never fired");
    }
}
