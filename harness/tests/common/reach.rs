//! How often generated cases reach what a name says.
use std::collections::BTreeMap;

#[derive(Default)]
pub struct Reach(BTreeMap<String, u32>);

impl Reach {
    pub fn note(&mut self, name: impl Into<String>, reached: bool) {
        *self.0.entry(name.into()).or_default() += u32::from(reached);
    }

    /// Prints the counts; each name is reached so often or more.
    pub fn each_at_least(&self, least: u32) {
        for (name, count) in &self.0 {
            println!("{count:7} {name}");
        }
        let missed: Vec<_> = self.0.iter().filter(|(_, count)| **count < least).collect();
        assert!(missed.is_empty(), "{missed:?}");
    }
}
