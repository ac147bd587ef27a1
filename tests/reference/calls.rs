//! The functions of the C library, by the rules: the number that each returns and what it leaves in the lent memory.

use crate::rules::{self, Refusal, MOST_ENTRIES, MOST_WORDS};

fn packed(answer: Result<u64, Refusal>) -> u64 {
    match answer {
        Ok(parts) => parts << 8,
        Err(refusal) => (refusal.place as u64) << 8 | refusal.number,
    }
}

fn short_output() -> Result<u64, Refusal> {
    Err(Refusal { number: 8, place: 0 })
}

fn issued(table: &[u16], source: u64, target: u64, out: &mut [u8]) -> Result<u64, Refusal> {
    let network = rules::judge(table)?;
    let pair = network.near_pair(source, target)?;
    if out.len() < MOST_WORDS {
        return short_output();
    }
    let issued = network.issue(&pair)?;
    out[..MOST_WORDS].fill(0);
    out[..issued.words.len()].copy_from_slice(&issued.words);
    Ok(issued.distance | issued.count << 8 | issued.tries << 32)
}

pub fn header(fields: &[u8], source: u64, target: u64, out: &mut [u8]) -> u64 {
    packed(rules::fields(fields, false).and_then(|found| issued(&found.table, source, target, out)))
}

pub fn table_header(table: &[u16], source: u64, target: u64, out: &mut [u8]) -> u64 {
    packed(issued(table, source, target, out))
}

pub fn table_distance(table: &[u16], source: u64, target: u64) -> u64 {
    packed(rules::judge(table).and_then(|network| Ok(network.pair(source, target)?.distance)))
}

pub fn table_masks(table: &[u16], source: u64, target: u64, out: &mut [u8]) -> u64 {
    packed(rules::judge(table).and_then(|network| {
        let pair = network.near_pair(source, target)?;
        if out.len() < network.switches() {
            return short_output();
        }
        (0..network.switches()).for_each(|s| out[s] = network.mask(&pair, s));
        Ok(pair.distance)
    }))
}

pub fn table_test(table: &[u16], source: u64, target: u64, header: &[u8]) -> u64 {
    packed(rules::judge(table).and_then(|network| {
        let pair = network.near_pair(source, target)?;
        Ok(if network.passes(&pair, header) { 1 } else { 2 })
    }))
}

pub fn table_walk(table: &[u16], source: u64, header: &[u8], choices: &[u8]) -> u64 {
    packed(rules::judge(table).and_then(|network| {
        let end = rules::walk(&network, source, header, choices)?;
        Ok(end.ending as u64 | end.at << 8 | (end.hops as u64) << 24 | (end.left as u64) << 32)
    }))
}

pub fn fields(fields: &[u8], table: &mut [u16]) -> u64 {
    packed(rules::fields(fields, true).and_then(|found| {
        if table.len() < MOST_ENTRIES {
            return short_output();
        }
        table[..found.table.len()].copy_from_slice(&found.table);
        Ok(found.table.len() as u64 / 8 | (found.pairs_at as u64) << 8)
    }))
}
