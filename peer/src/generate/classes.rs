//! How often something of each class was seen, for the tests of what lists
//! reach.

use std::collections::BTreeMap;

#[derive(Default)]
pub struct Classes(BTreeMap<String, usize>);

impl Classes {
    pub fn see(&mut self, class: impl Into<String>) {
        *self.0.entry(class.into()).or_default() += 1;
    }

    pub fn see_if(&mut self, is_so: bool, class: impl Into<String>) {
        if is_so {
            self.see(class);
        }
    }

    pub fn count(&self, class: &str) -> usize {
        self.0.get(class).copied().unwrap_or(0)
    }

    pub fn has(&self, class: &str) -> bool {
        self.count(class) > 0
    }

    /// Classes that were seen less often than they must be.
    pub fn missing(&self, required: Vec<(String, usize)>) -> Vec<String> {
        required
            .into_iter()
            .filter(|(class, least)| self.count(class) < *least)
            .map(|(class, least)| format!("{class}: {} of {least}", self.count(&class)))
            .collect()
    }

    pub fn print(&self) {
        for (class, count) in &self.0 {
            println!("{count:8} {class}");
        }
    }
}
