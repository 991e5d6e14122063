//! Counting what occurred, and asking that certain things did.

use std::collections::BTreeMap;

#[derive(Clone, Default, Debug)]
pub struct Tally {
    pub counts: BTreeMap<String, u64>,
}

impl Tally {
    pub fn new() -> Tally {
        Tally::default()
    }

    pub fn add(&mut self, key: &str) {
        match self.counts.get_mut(key) {
            Some(n) => *n += 1,
            None => {
                self.counts.insert(key.to_string(), 1);
            }
        }
    }

    pub fn get(&self, key: &str) -> u64 {
        self.counts.get(key).copied().unwrap_or(0)
    }

    pub fn merge(&mut self, other: &Tally) {
        for (key, n) in &other.counts {
            *self.counts.entry(key.clone()).or_insert(0) += n;
        }
    }

    pub fn print(&self) {
        for (key, n) in &self.counts {
            println!("  {key}: {n}");
        }
    }

    /// Those of the wanted keys that never occurred.
    pub fn missing(&self, wanted: &[String]) -> Vec<String> {
        wanted
            .iter()
            .filter(|key| self.get(key) == 0)
            .cloned()
            .collect()
    }
}
