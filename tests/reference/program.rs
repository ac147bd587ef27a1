//! The program `routes`, by the rules, and inputs for it, at random.

use crate::networks::{self, Random};
use crate::pieces::{self, DAMAGES};
use crate::rules::{self, Refusal, NO_LINK};

const MOST_INPUT: usize = 65536;

/// What `routes` prints.
pub fn routes(input: &[u8]) -> String {
    if input.len() > MOST_INPUT {
        return "input too long\n".to_string();
    }
    let found = match rules::fields(input, true) {
        Ok(found) => found,
        Err(bad) => return format!("bad field at {}\n", bad.place),
    };
    let network = rules::judge(&found.table);
    let mut text = "src dst ans dist count tries words\n".to_string();
    for (source, target) in &found.pairs {
        let issued = network.as_ref().map_err(|refusal| *refusal).and_then(|network| {
            let pair = network.near_pair(*source as u64, *target as u64)?;
            network.issue(&pair)
        });
        text += &format!("{} {} {}\n", source, target, answer(issued));
    }
    text
}

fn answer(issued: Result<rules::Issued, Refusal>) -> String {
    match issued {
        Err(refusal) => format!("{} 0 0 0 -", refusal.number),
        Ok(issued) => {
            let words: Vec<String> = issued.words.iter().map(|w| format!("{:02X}", w)).collect();
            format!("0 {} {} {} {}", issued.distance, issued.count, issued.tries, words.join(" "))
        }
    }
}

/// Kinds of inputs: name, maker, and how many of the 300 are of it.
pub const KINDS: [(&str, fn(&mut Random) -> Vec<u8>, usize); 10] = [
    ("pairs on a network", |r| some_pairs(r).concat(), 140),
    ("bad fields", bad_fields, 60),
    ("bad table", bad_table, 50),
    ("pairs without rows", |r| pieces::fields_of(&[], &pairs(r, &[], 9)).concat(), 12),
    ("rows without pairs", |r| pieces::fields_of(&networks::network(r).1.table, &[]).concat(), 12),
    ("empty", |_| Vec::new(), 1),
    ("thousands of pairs", thousands, 8),
    ("65,536 bytes", |r| of_length(r, MOST_INPUT), 6),
    ("65,537 bytes", |r| of_length(r, MOST_INPUT + 1), 6),
    ("more bytes", more_bytes, 5),
];

/// Pairs of attached processors, and now and then of others.
fn pairs(r: &mut Random, table: &[u16], n: usize) -> Vec<(u16, u16)> {
    let attached = networks::processors(table);
    let one = |r: &mut Random| match r.below(16) {
        0 => r.below(512) as u16,
        1 => r.of(&[511, 512, 1000, 64535, 65535]),
        _ if attached.is_empty() => r.below(8) as u16,
        _ => r.of(&attached) as u16,
    };
    (0..n).map(|_| (one(r), one(r))).collect()
}

fn some_pairs(r: &mut Random) -> Vec<Vec<u8>> {
    let (_, wiring) = networks::network(r);
    let n = 1 + r.index(12);
    let mut pairs = pairs(r, &wiring.table, n);
    pairs.extend(wiring.pair.map(|p| (p.0 as u16, p.1 as u16)));
    pieces::fields_of(&wiring.table, &pairs)
}

fn bad_fields(r: &mut Random) -> Vec<u8> {
    let fields = some_pairs(r);
    let damage = r.of(&DAMAGES[..6]);
    pieces::damaged(r, fields, damage)
}

fn bad_table(r: &mut Random) -> Vec<u8> {
    let (_, wiring) = networks::network(r);
    let pairs = pairs(r, &wiring.table, 5);
    let fault = r.of(&["entry", "twice", "entry and twice"]);
    pieces::fields_of(&pieces::with_fault(r, &wiring.table, fault), &pairs).concat()
}

/// Up to 9,188 pairs, the most that stand after 64 rows.
fn thousands(r: &mut Random) -> Vec<u8> {
    let table = if r.one_in(2) { networks::cube_of(r, 6).table } else { networks::easy_network(r).table };
    let n = 9188 - r.index(4000);
    let pairs = pairs(r, &table, n);
    pieces::fields_of(&table, &pairs).concat()
}

/// Fields of exactly that many bytes: up to six rows without links make it a length that pairs can fill. One time in
/// three the last tag is bad.
fn of_length(r: &mut Random, length: usize) -> Vec<u8> {
    let mut table = networks::easy_network(r).table;
    while (length - table.len() / 8 * 19) % 7 != 0 {
        table.extend([NO_LINK; 8]);
    }
    let pairs = pairs(r, &table, (length - table.len() / 8 * 19) / 7);
    let mut bytes = pieces::fields_of(&table, &pairs).concat();
    if r.one_in(3) {
        bytes[length - 7] = 3;
    }
    bytes
}

fn more_bytes(r: &mut Random) -> Vec<u8> {
    let length = MOST_INPUT + 2 + r.index(150_000);
    if r.one_in(2) {
        return r.bytes(length);
    }
    of_length(r, length)
}
