//! How many cases of each kind were made, and whether every answer came that a function can give.

use crate::cases::{Call, Case, CALLS};
use std::collections::BTreeMap;

/// The refusal numbers of each call, and 0.
const NUMBERS: [&[u64]; 7] = [
    &[0, 1, 2, 3, 4, 5, 6, 7, 8, 9, 12],
    &[0, 1, 2, 3, 4, 5, 6, 7, 8, 9],
    &[0, 1, 2, 3, 4, 5, 6],
    &[0, 1, 2, 3, 4, 5, 6, 7, 8],
    &[0, 1, 2, 3, 4, 5, 6, 7],
    &[0, 1, 2, 3, 4, 10, 11],
    &[0, 8, 12],
];
const HEADINGS: [&str; 8] = ["number", "test", "ending", "network", "table fault", "processors", "header", "fields"];
const SAYS: [&str; 2] = ["1 yes", "2 no"];
const ENDINGS: [&str; 5] = ["1 DELIVERED", "2 LEFTOVER", "3 EMPTY", "4 OFF", "5 SHORT"];

#[derive(Default)]
pub struct Counts {
    /// By heading and name, the cases of each call.
    rows: BTreeMap<(&'static str, String), [u64; 7]>,
}

impl Counts {
    fn add(&mut self, heading: &'static str, name: String, call: Call) {
        self.rows.entry((heading, name)).or_default()[call as usize] += 1;
    }

    pub fn case(&mut self, case: &Case, answer: u64) {
        for (heading, name) in &case.labels {
            self.add(heading, name.clone(), case.call);
        }
        self.add("number", format!("{:2}", answer & 255), case.call);
        let part = (answer >> 8) as usize & 255;
        match (case.call, answer & 255) {
            (Call::Test, 0) => self.add("test", SAYS[part - 1].to_string(), case.call),
            (Call::Walk, 0) => self.add("ending", ENDINGS[part - 1].to_string(), case.call),
            _ => {}
        }
    }

    /// A line for each answer and output length that never came.
    pub fn missing(&self) -> String {
        let mut missing = String::new();
        let mut demand = |heading: &'static str, name: String, call: Call| {
            if self.rows.get(&(heading, name.clone())).map_or(0, |row| row[call as usize]) == 0 {
                missing += &format!("{}: {} {}\n", CALLS[call as usize].1, heading, name.trim());
            }
        };
        for ((call, _), numbers) in CALLS.iter().zip(NUMBERS) {
            numbers.iter().for_each(|number| demand("number", format!("{:2}", number), *call));
        }
        SAYS.iter().for_each(|says| demand("test", says.to_string(), Call::Test));
        ENDINGS.iter().for_each(|ending| demand("ending", ending.to_string(), Call::Walk));
        for call in [Call::Header, Call::TableHeader, Call::Masks] {
            (0..=70).for_each(|length| demand("output length", format!("{}", length), call));
        }
        missing
    }

    /// A table with a column for each call. The output lengths have one row, with the fewest cases that one of them
    /// has.
    pub fn table(&self) -> String {
        let mut text = format!("{:<34}{:>7}", "", "all");
        CALLS.iter().for_each(|(_, name)| text += &format!("{:>15}", name));
        let mut line = |name: &str, row: &[u64; 7]| {
            text += &format!("\n{:<34}{:>7}", name, row.iter().sum::<u64>());
            row.iter().for_each(|n| text += &format!("{:>15}", n));
        };
        for wanted in HEADINGS {
            for ((heading, name), row) in self.rows.iter().filter(|(key, _)| key.0 == wanted) {
                line(&format!("{}: {}", heading, name), row);
            }
        }
        let lengths = self.rows.iter().filter(|(key, _)| key.0 == "output length");
        let fewest = lengths.map(|(_, row)| *row).reduce(|a, b| std::array::from_fn(|i| a[i].min(b[i])));
        line("fewest for an output length", &fewest.unwrap_or_default());
        text + "\n"
    }
}
