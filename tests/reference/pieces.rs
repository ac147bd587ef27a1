//! What calls are made of, at random: processors, tables with faults, headers, field bytes. Most come with a name of
//! how they were made.

use crate::networks::{self, is_processor, Random, Wiring};
use crate::rules::{self, Network, Pair, NO_LINK};

/// Two processors, mostly attached ones.
pub fn pair(r: &mut Random, wiring: &Wiring) -> (u64, u64, &'static str) {
    let attached = networks::processors(&wiring.table);
    let mut pair = match wiring.pair {
        Some(pair) if !r.one_in(4) => pair,
        _ if attached.len() < 2 => (r.below(512), r.below(512)),
        _ => two_of(r, &attached),
    };
    match r.below(24) {
        0 => pair.0 = unlikely(r, &attached),
        1 => pair.1 = unlikely(r, &attached),
        2 => pair = (unlikely(r, &attached), unlikely(r, &attached)),
        3..=4 => pair.1 = pair.0,
        _ => {}
    }
    let both = |limit: u64| pair.0 <= limit && pair.1 <= limit;
    let how = match () {
        _ if !both(1 << 63) => "near 2^64",
        _ if !both(65535) => "above 65,535",
        _ if !attached.contains(&pair.0) || !attached.contains(&pair.1) => "not attached",
        _ if pair.0 == pair.1 => "the same",
        _ => "attached",
    };
    (pair.0, pair.1, how)
}

fn two_of(r: &mut Random, items: &[u64]) -> (u64, u64) {
    let i = r.index(items.len());
    (items[i], items[(i + 1 + r.index(items.len() - 1)) % items.len()])
}

/// A processor number that is likely not attached, often one that is when cut to fewer bits or when 1000 is added.
fn unlikely(r: &mut Random, attached: &[u64]) -> u64 {
    let some = if attached.is_empty() { 0 } else { r.of(attached) };
    match r.below(12) {
        0..=2 => r.below(512),
        3 => 512 + r.below(2),
        4 => 65535 - 1000,
        5 => 65536 - 1000 + r.below(3),
        6..=7 => some + 65536,
        8 => some + (1 << r.of(&[17, 24, 32, 40, 56])),
        9 => some + (1 << 63),
        10 => u64::MAX - 999 + r.below(3),
        _ => u64::MAX - r.below(2),
    }
}

pub const BAD_LENGTHS: [usize; 18] = [0, 1, 4, 7, 9, 12, 15, 63, 65, 100, 511, 513, 516, 519, 520, 528, 576, 1024];

/// The table as it is, or with one of the faults that refusals 1 to 3 name, or with both faults of entries.
pub fn faulty(r: &mut Random, table: &[u16], bad_lengths: &[usize]) -> (Vec<u16>, &'static str) {
    let fault = r.of(&["length", "entry", "twice", "entry and twice"]);
    if !r.one_in(5) {
        return (table.to_vec(), "none");
    }
    if fault == "length" {
        let mut t = table.to_vec();
        t.resize(r.of(bad_lengths), NO_LINK);
        return (t, fault);
    }
    (with_fault(r, table, fault), fault)
}

/// The table with bad entries, with processors at a second port, or with both, as the name of the fault says.
pub fn with_fault(r: &mut Random, table: &[u16], fault: &str) -> Vec<u16> {
    let mut t = table.to_vec();
    let processors: Vec<u16> = t.iter().copied().filter(|e| is_processor(*e)).collect();
    if fault.starts_with("entry") {
        for _ in 0..1 + r.below(3) {
            let i = r.index(t.len());
            t[i] = bad_entry(r, t.len() as u64 / 8);
        }
    }
    if fault.ends_with("twice") && !processors.is_empty() {
        for _ in 0..1 + r.below(3) {
            let i = r.index(t.len());
            t[i] = r.of(&processors);
        }
    }
    t
}

fn bad_entry(r: &mut Random, switches: u64) -> u16 {
    let entry = match r.below(6) {
        0 => switches,
        1 => 999,
        2 => 1512,
        3 => 65534,
        4 => switches + r.below(1000 - switches),
        _ => 1512 + r.below(65535 - 1512),
    };
    entry as u16
}

/// A header for a pair and how it was made; on a network whose pair has none it is made for any walk.
pub fn header(r: &mut Random, wiring: &Wiring, source: u64, target: u64) -> (Vec<u8>, &'static str) {
    if r.one_in(16) {
        let n = r.of(&[9, 9, 10, 12, 300]);
        return (r.bytes(n), "over 8 words");
    }
    let network = rules::judge(&wiring.table).ok();
    let found = network.as_ref().and_then(|n| n.near_pair(source, target).ok().map(|pair| (n, pair)));
    match found {
        Some((network, pair)) if !r.one_in(8) => near_passing(r, network, &pair),
        _ if r.one_in(4) => {
            let n = r.index(9);
            (r.bytes(n), "any words")
        }
        _ => (wander(r, &wiring.table, source), "along links"),
    }
}

/// A header that passes, or one near to it.
fn near_passing(r: &mut Random, network: &Network, pair: &Pair) -> (Vec<u8>, &'static str) {
    let mut words = passing(r, network, pair);
    let i = r.index(words.len());
    let how = match r.below(8) {
        0..=2 => "passes",
        3..=4 => "a bit changed",
        5 => "a word more",
        6 => "a word less",
        _ => "a word 0",
    };
    match how {
        "a bit changed" => words[i] ^= 1 << r.below(8),
        "a word more" => words.insert(i, 1 << r.below(8)),
        "a word less" => {
            words.remove(i);
        }
        "a word 0" => words[i] = 0,
        _ => {}
    }
    (words, how)
}

/// The issued header, or a shortest way widened bit by bit as long as it passes.
fn passing(r: &mut Random, network: &Network, pair: &Pair) -> Vec<u8> {
    if r.one_in(4) {
        if let Ok(issued) = network.issue(pair) {
            return issued.words;
        }
    }
    let mut words = network.some_way(pair, &mut |n| r.index(n));
    for _ in 0..r.below(24) {
        let mut wider = words.clone();
        wider[r.index(words.len())] |= 1 << r.below(8);
        if network.passes(pair, &wider) {
            words = wider;
        }
    }
    words
}

/// Words that mostly name ports with a link to a switch, one switch after the other.
fn wander(r: &mut Random, table: &[u16], source: u64) -> Vec<u8> {
    let n = table.len() / 8;
    let mut s = table.iter().position(|e| is_processor(*e) && *e as u64 == 1000 + source % 512).unwrap_or(0) / 8;
    let mut words = Vec::new();
    for _ in 0..r.index(9) {
        let onward: Vec<usize> = (0..8).filter(|p| (table[8 * s + p] as usize) < n).collect();
        if onward.is_empty() || r.one_in(8) {
            words.push(r.below(256) as u8);
            continue;
        }
        let (one, other) = (r.of(&onward), r.of(&onward));
        words.push(1 << one | 1 << other);
        s = table[8 * s + one] as usize;
    }
    words
}

fn row_field(row: &[u16]) -> Vec<u8> {
    let mut field = vec![1, 0, 16];
    row.iter().for_each(|e| field.extend(e.to_be_bytes()));
    field
}

fn pair_field(source: u16, target: u16) -> Vec<u8> {
    [&[2, 0, 4][..], &source.to_be_bytes(), &target.to_be_bytes()].concat()
}

pub fn fields_of(table: &[u16], pairs: &[(u16, u16)]) -> Vec<Vec<u8>> {
    let rows = table.chunks_exact(8).map(row_field);
    rows.chain(pairs.iter().map(|p| pair_field(p.0, p.1))).collect()
}

pub const DAMAGES: [&str; 7] = [
    "cut short",
    "another tag",
    "another length",
    "tag 1 after tag 2",
    "65th tag 1",
    "any byte changed",
    "none at all",
];

/// The fields of a table, damaged one time in four or six. The C call of 01 seldom gets pairs, as they are bad there.
pub fn field_bytes(r: &mut Random, table: &[u16], only_rows: bool) -> (Vec<u8>, &'static str) {
    let most = if only_rows { u64::from(r.one_in(16)) } else { 4 };
    let pairs: Vec<(u16, u16)> = (0..r.below(most + 1)).map(|_| (r.below(65536) as u16, r.below(600) as u16)).collect();
    let fields = fields_of(table, &pairs);
    if !r.one_in(if only_rows { 6 } else { 4 }) {
        return (fields.concat(), if only_rows && !pairs.is_empty() { "a tag 2" } else { "as they are" });
    }
    let damage = if r.one_in(24) { "over 65,536 bytes" } else { r.of(&DAMAGES) };
    (damaged(r, fields, damage), damage)
}

/// Fields with one of the damages; those that have no field to damage stay as they are.
pub fn damaged(r: &mut Random, mut fields: Vec<Vec<u8>>, damage: &str) -> Vec<u8> {
    if fields.is_empty() {
        return Vec::new();
    }
    let i = r.index(fields.len());
    match damage {
        "cut short" => {
            fields.truncate(i + 1);
            let kept = 1 + r.index(fields[i].len() - 1);
            fields[i].truncate(kept);
        }
        "another tag" => fields[i][0] = r.of(&[0, 3, 1, 2, 129, 255]),
        "another length" => {
            let length: u16 = r.of(&[0, 4, 15, 16, 17, 256 + 4, 256 + 16, 65535]);
            fields[i][1..3].copy_from_slice(&length.to_be_bytes());
            if r.one_in(2) {
                fields[i].resize(3 + length as usize, 0);
            }
        }
        "tag 1 after tag 2" => {
            fields.push(pair_field(0, 1));
            fields.push(row_field(&[NO_LINK; 8]));
        }
        "65th tag 1" => fields = vec![row_field(&[NO_LINK; 8]); 64 + r.index(3)],
        "any byte changed" => {
            let k = r.index(fields[i].len());
            fields[i][k] = r.below(256) as u8;
        }
        "none at all" => fields.clear(),
        _ => {
            fields.extend((0..9400 + r.index(200)).map(|k| pair_field(k as u16, 1)));
            if r.one_in(2) {
                fields.push(vec![2, 0]);
            }
        }
    }
    fields.concat()
}
