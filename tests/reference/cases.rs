//! Calls of the C library, at random, and the lines that tests/c/driver.c prints for them.

use crate::calls;
use crate::networks::{self, Random, Wiring};
use crate::pieces;

#[derive(Clone, Copy, PartialEq)]
pub enum Call {
    Header,
    TableHeader,
    Distance,
    Masks,
    Test,
    Walk,
    Fields,
}

use Call::*;

pub const CALLS: [(Call, &str); 7] = [
    (Header, "header"),
    (TableHeader, "table_header"),
    (Distance, "table_distance"),
    (Masks, "table_masks"),
    (Test, "table_test"),
    (Walk, "table_walk"),
    (Fields, "fields"),
];

pub enum Slice {
    Bytes(Vec<u8>),
    Numbers(Vec<u16>),
}

impl Slice {
    fn text(&self, empty: &str) -> String {
        let digits: String = match self {
            Slice::Bytes(bytes) => bytes.iter().map(|x| format!("{:02x}", x)).collect(),
            Slice::Numbers(numbers) => numbers.iter().map(|x| format!("{:04x}", x)).collect(),
        };
        if digits.is_empty() {
            empty.to_string()
        } else {
            digits
        }
    }

    fn bytes(&self) -> &[u8] {
        match self {
            Slice::Bytes(bytes) => bytes,
            Slice::Numbers(_) => unreachable!(),
        }
    }

    fn numbers(&self) -> &[u16] {
        match self {
            Slice::Numbers(numbers) => numbers,
            Slice::Bytes(_) => unreachable!(),
        }
    }
}

/// What a case counts as: the heading and the name.
pub type Label = (&'static str, String);

pub struct Case {
    pub call: Call,
    source: u64,
    target: u64,
    slices: Vec<Slice>,
    /// Empty slices are lent as NULL.
    null: bool,
    pub labels: Vec<Label>,
}

impl Case {
    /// The call, the two processors and three slices in hexadecimal digits.
    pub fn text(&self) -> String {
        let empty = if self.null { "null" } else { "-" };
        let mut slices: Vec<String> = self.slices.iter().map(|s| s.text(empty)).collect();
        slices.resize(3, "-".to_string());
        format!("{} {} {} {}", CALLS[self.call as usize].1, self.source, self.target, slices.join(" "))
    }

    /// The number that the call returns, and what the lent output then holds.
    pub fn expected(&self) -> (u64, Option<Slice>) {
        let (a, d) = (self.source, self.target);
        let bytes = |i: usize| self.slices[i].bytes();
        let table = || self.slices[0].numbers();
        let lending = |call: &dyn Fn(&mut [u8]) -> u64| {
            let mut out = bytes(1).to_vec();
            let answer = call(&mut out);
            (answer, Some(Slice::Bytes(out)))
        };
        match self.call {
            Header => lending(&|out| calls::header(bytes(0), a, d, out)),
            TableHeader => lending(&|out| calls::table_header(table(), a, d, out)),
            Distance => (calls::table_distance(table(), a, d), None),
            Masks => lending(&|out| calls::table_masks(table(), a, d, out)),
            Test => (calls::table_test(table(), a, d, bytes(1)), None),
            Walk => (calls::table_walk(table(), a, bytes(1), bytes(2)), None),
            Fields => {
                let mut lent = self.slices[1].numbers().to_vec();
                let answer = calls::fields(bytes(0), &mut lent);
                (answer, Some(Slice::Numbers(lent)))
            }
        }
    }
}

/// The line that the driver prints.
pub fn expected_line(answer: u64, lent: &Option<Slice>) -> String {
    match lent {
        Some(slice) => format!("{:016x} {}", answer, slice.text("-")),
        None => format!("{:016x}", answer),
    }
}

/// The case of a number: the calls take turns, and so do the lengths of the outputs.
pub fn case(r: &mut Random, number: usize) -> Case {
    let (call, turn) = (CALLS[number % CALLS.len()].0, number / CALLS.len());
    let searches = matches!(call, Header | TableHeader);
    let (kind, wiring) = if searches && r.one_in(3) { networks::near_limit_network(r) } else { networks::network(r) };
    let (source, target, how) = pieces::pair(r, &wiring);
    let mut labels = vec![("network", kind.to_string())];
    if call != Fields {
        labels.push(("processors", how.to_string()));
    }
    let mut slices = vec![wired_slice(r, call, &wiring, &mut labels)];
    match call {
        Header | TableHeader | Masks => {
            labels.push(("output length", format!("{}", turn % 71)));
            slices.push(Slice::Bytes(r.bytes(turn % 71)));
        }
        Test | Walk => {
            let (words, how) = pieces::header(r, &wiring, source, target);
            labels.push(("header", how.to_string()));
            let choices = if r.one_in(8) { r.index(words.len() + 1) } else { words.len() + r.index(3) };
            slices.push(Slice::Bytes(words));
            slices.push(Slice::Bytes(r.bytes(if call == Walk { choices } else { 0 })));
        }
        Fields => {
            let lent = r.of(&[0, 1, 511, 512, 512, 512, 513, 600]);
            slices.push(Slice::Numbers((0..lent).map(|_| r.below(65536) as u16).collect()));
        }
        Distance => {}
    }
    Case { call, source, target, slices, null: r.one_in(2), labels }
}

/// The first slice of a call: a table, or fields. Of the bad lengths fields can only have 0.
fn wired_slice(r: &mut Random, call: Call, wiring: &Wiring, labels: &mut Vec<Label>) -> Slice {
    let (table, fault) = match call {
        Fields => (wiring.table.clone(), "not judged"),
        Header => pieces::faulty(r, &wiring.table, &[0]),
        _ => pieces::faulty(r, &wiring.table, &pieces::BAD_LENGTHS),
    };
    labels.push(("table fault", fault.to_string()));
    if !matches!(call, Header | Fields) {
        return Slice::Numbers(table);
    }
    let (fields, damage) = pieces::field_bytes(r, &table, call == Header);
    labels.push(("fields", damage.to_string()));
    Slice::Bytes(fields)
}
