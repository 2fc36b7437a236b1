//! What was compared, how often, and the smallest input of each kind on which the two differ.

use std::{collections::BTreeMap, fmt::Debug};

#[derive(Default)]
struct Topic {
    cases: u64,
    numbers: u64,
    differences: u64,
    smallest: Option<(usize, String)>,
}

#[derive(Default)]
pub struct Tally(BTreeMap<String, Topic>);

impl Tally {
    /// Counts a case in which so many numbers were held against each other.
    pub fn count(&mut self, topic: &str, numbers: usize) {
        let topic = self.topic(topic);
        topic.cases += 1;
        topic.numbers += numbers as u64;
    }

    pub fn differs(&mut self, topic: &str, input: &[u32], why: &str) {
        let topic = self.topic(topic);
        topic.differences += 1;
        if topic.smallest.as_ref().is_none_or(|(size, _)| input.len() < *size) {
            topic.smallest = Some((input.len(), format!("{why}: {input:?}")));
        }
    }

    /// Holds the library's answer against the Rust's.
    pub fn equal<T: PartialEq + Debug>(&mut self, topic: &str, input: &[u32], ours: &[T], rust: &[T]) {
        self.count(topic, rust.len());
        if ours != rust {
            let at = ours.iter().zip(rust).take_while(|(a, b)| a == b).count();
            let why = format!("{} and {} long, first at {at}: {:?}, the Rust {:?}", ours.len(), rust.len(), ours.get(at), rust.get(at));
            self.differs(topic, input, &why);
        }
    }

    fn topic(&mut self, name: &str) -> &mut Topic {
        self.0.entry(name.to_string()).or_default()
    }

    /// The topics that every run must reach and this one did not.
    fn missing(&self) -> Vec<String> {
        let families = (1..=10).flat_map(|family| ["binary", "colour"].map(|kind| format!("family {family:2}, {kind}")));
        let kinds = ["probes", "pictures", "blocking", "starts", "read_line", "read_grid"];
        let by_kind = kinds.iter().flat_map(|topic| ["binary", "colour"].map(|kind| format!("{topic}, {kind}")));
        let refusals = ["clauses, binary: 6", "clauses, colour: 6", "clauses, colour: 9", "clauses, colour: 10", "clauses: 12"];
        let others = ["models, binary: 15", "models, colour: 15", "probes, colour: 17, a panic", "probes, colour: 19, a panic"];
        let alone = ["counts", "clause words", "color_ranges, colour", "transpose", "two_powers", "from_two_powers"];
        let named = refusals.iter().chain(&others).chain(&alone).map(|topic| topic.to_string());
        // A binary puzzle has one colour, so its family 9 has no clause.
        let reached = |topic: &String| self.0.get(topic).is_some_and(|found| found.numbers > 0 || topic == "family  9, binary");
        families.chain(by_kind).chain(named).filter(|topic| !reached(topic)).collect()
    }

    /// Prints the counts; whether there was no difference, and every topic was reached.
    pub fn summary(&self) -> bool {
        println!("{:<44} {:>12} {:>16} {:>10}", "compared", "cases", "numbers", "different");
        for (name, topic) in &self.0 {
            println!("{name:<44} {:>12} {:>16} {:>10}", topic.cases, topic.numbers, topic.differences);
        }
        for (name, topic) in &self.0 {
            if let Some((_, smallest)) = &topic.smallest {
                println!("{name}: {smallest}");
            }
        }
        let missing = self.missing();
        missing.iter().for_each(|topic| println!("never compared: {topic}"));
        missing.is_empty() && self.0.values().all(|topic| topic.differences == 0)
    }
}
