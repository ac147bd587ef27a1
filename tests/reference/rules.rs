//! The rules, as directly as they can be said: every way is measured, every list of ports that a header permits is
//! followed, every choice of the header search is tried. Nothing is shared with the Rattle code.

pub const NO_LINK: u16 = 65535;
pub const MOST_TRIES: u64 = 65536;
pub const MOST_WORDS: usize = 8;
pub const MOST_ENTRIES: usize = 512;

/// Far more links than any way has.
const APART: u64 = 1_000_000;

#[derive(Clone, Copy, PartialEq)]
pub enum Entry {
    Switch(usize),
    Processor(u64),
    Nothing,
    Bad,
}

#[derive(Clone, Copy, PartialEq, Debug)]
pub struct Refusal {
    pub number: u64,
    pub place: usize,
}

fn refuse<T>(number: u64) -> Result<T, Refusal> {
    Err(Refusal { number, place: 0 })
}

pub fn entry(number: u16, switches: usize) -> Entry {
    match number {
        s if (s as usize) < switches => Entry::Switch(s as usize),
        1000..=1511 => Entry::Processor(number as u64 - 1000),
        NO_LINK => Entry::Nothing,
        _ => Entry::Bad,
    }
}

/// A table that none of refusals 1 to 3 applies to.
pub struct Network {
    far: Vec<[Entry; 8]>,
    /// The fewest links from a switch to a switch; APART where no chain joins them.
    links: Vec<Vec<u64>>,
}

pub fn judge(table: &[u16]) -> Result<Network, Refusal> {
    if table.is_empty() || table.len() > MOST_ENTRIES || table.len() % 8 != 0 {
        return refuse(1);
    }
    let entries: Vec<Entry> = table.iter().map(|e| entry(*e, table.len() / 8)).collect();
    if let Some(place) = entries.iter().position(|e| *e == Entry::Bad) {
        return Err(Refusal { number: 2, place });
    }
    let again = |i: &usize| matches!(entries[*i], Entry::Processor(_)) && entries[..*i].contains(&entries[*i]);
    if let Some(place) = (0..entries.len()).find(again) {
        return Err(Refusal { number: 3, place });
    }
    let far: Vec<[Entry; 8]> = entries.chunks(8).map(|c| [c[0], c[1], c[2], c[3], c[4], c[5], c[6], c[7]]).collect();
    let links = fewest_links(&far);
    Ok(Network { far, links })
}

fn fewest_links(far: &[[Entry; 8]]) -> Vec<Vec<u64>> {
    let n = far.len();
    let mut links = vec![vec![APART; n]; n];
    for (a, ports) in far.iter().enumerate() {
        for port in ports {
            if let Entry::Switch(b) = port {
                links[a][*b] = 1;
            }
        }
        links[a][a] = 0;
    }
    for via in 0..n {
        for a in 0..n {
            for b in 0..n {
                links[a][b] = links[a][b].min(links[a][via] + links[via][b]);
            }
        }
    }
    links
}

fn ports_of(word: u8) -> impl Iterator<Item = usize> {
    (0..8).filter(move |p| word >> p & 1 == 1)
}

/// A pair that none of refusals 4 to 6 applies to.
pub struct Pair {
    from: usize,
    to: usize,
    target: u64,
    pub distance: u64,
}

impl Network {
    pub fn switches(&self) -> usize {
        self.far.len()
    }

    fn home(&self, processor: u64) -> Option<usize> {
        (0..self.switches()).find(|s| self.far[*s].contains(&Entry::Processor(processor)))
    }

    pub fn pair(&self, source: u64, target: u64) -> Result<Pair, Refusal> {
        let (from, to) = match (self.home(source), self.home(target)) {
            (Some(from), Some(to)) => (from, to),
            _ => return refuse(4),
        };
        if source == target {
            return refuse(5);
        }
        if self.links[from][to] >= APART {
            return refuse(6);
        }
        Ok(Pair { from, to, target, distance: self.links[from][to] + 1 })
    }

    pub fn near_pair(&self, source: u64, target: u64) -> Result<Pair, Refusal> {
        let pair = self.pair(source, target)?;
        if pair.distance > MOST_WORDS as u64 {
            return refuse(7);
        }
        Ok(pair)
    }

    /// Whether port p of switch s starts a shortest way onward, for a pair on whose shortest ways s lies.
    fn onward(&self, pair: &Pair, s: usize, p: usize) -> bool {
        match self.far[s][p] {
            Entry::Processor(a) => a == pair.target,
            Entry::Switch(t) => self.links[t][pair.to] + 1 == self.links[s][pair.to],
            _ => false,
        }
    }

    pub fn mask(&self, pair: &Pair, s: usize) -> u8 {
        let from_source = self.links[pair.from][s] + 1;
        let to_target = self.links[s][pair.to] + 1;
        if from_source + to_target != pair.distance + 1 {
            return 0;
        }
        (0..8).filter(|p| self.onward(pair, s, *p)).map(|p| 1 << p).sum()
    }

    /// Whether every list with one port from each word, followed from a switch, ends at the target with no port left
    /// over.
    fn all_lists_deliver(&self, s: usize, words: &[u8], target: u64) -> bool {
        ports_of(words[0]).all(|p| match self.far[s][p] {
            Entry::Switch(t) => words.len() > 1 && self.all_lists_deliver(t, &words[1..], target),
            Entry::Processor(a) => words.len() == 1 && a == target,
            _ => false,
        })
    }

    pub fn passes(&self, pair: &Pair, header: &[u8]) -> bool {
        header.len() as u64 == pair.distance
            && !header.contains(&0)
            && self.all_lists_deliver(pair.from, header, pair.target)
    }

    /// A shortest way of a pair, one port in each word, where `pick` chooses among as many ports as it is told.
    pub fn some_way(&self, pair: &Pair, pick: &mut dyn FnMut(usize) -> usize) -> Vec<u8> {
        let mut words = Vec::new();
        let mut s = pair.from;
        loop {
            let ports: Vec<usize> = ports_of(self.mask(pair, s)).collect();
            let port = ports[pick(ports.len())];
            words.push(1 << port);
            match self.far[s][port] {
                Entry::Switch(t) => s = t,
                _ => return words,
            }
        }
    }

    /// The widest header of a pair, its count and the tries.
    pub fn issue(&self, pair: &Pair) -> Result<Issued, Refusal> {
        let masks = (0..self.switches()).map(|s| self.mask(pair, s)).collect();
        let mut search = Search { network: self, masks, tries: 0 };
        let found = search.widest(&[pair.from], pair.distance);
        if search.tries > MOST_TRIES {
            return refuse(9);
        }
        let (count, words) = found.expect("a pair at distance 8 or less has a header");
        assert!(self.passes(pair, &words), "an issued header passes the test");
        Ok(Issued { distance: pair.distance, count, tries: search.tries, words })
    }
}

pub struct Issued {
    pub distance: u64,
    pub count: u64,
    pub tries: u64,
    pub words: Vec<u8>,
}

struct Search<'a> {
    network: &'a Network,
    masks: Vec<u8>,
    tries: u64,
}

impl Search<'_> {
    fn reached(&self, set: &[usize], word: u8) -> Vec<usize> {
        let mut reached = Vec::new();
        for s in set {
            for p in ports_of(word) {
                match self.network.far[*s][p] {
                    Entry::Switch(t) if !reached.contains(&t) => reached.push(t),
                    _ => {}
                }
            }
        }
        reached
    }

    /// Count and words of the widest header from a set, the first in byte order among equals; none where it meets a
    /// dead end. It stops as soon as the tries pass their limit.
    fn widest(&mut self, set: &[usize], stages: u64) -> Option<(u64, Vec<u8>)> {
        if stages == 0 {
            return Some((1, Vec::new()));
        }
        let common = set.iter().fold(255, |common, s| common & self.masks[*s]);
        let mut best: Option<(u64, Vec<u8>)> = None;
        for word in (1..=255u8).filter(|w| w & !common == 0) {
            if stages > 1 {
                self.tries += 1;
            }
            let rest = self.widest(&self.reached(set, word), stages - 1);
            if self.tries > MOST_TRIES {
                return None;
            }
            if let Some((count, words)) = rest {
                let count = count * word.count_ones() as u64;
                if best.as_ref().map_or(true, |b| count > b.0) {
                    best = Some((count, [vec![word], words].concat()));
                }
            }
        }
        best
    }
}

#[derive(Clone, Copy, PartialEq)]
pub enum Ending {
    Delivered = 1,
    Leftover,
    Empty,
    Off,
    Short,
}

pub struct Walk {
    pub ending: Ending,
    pub at: u64,
    pub hops: usize,
    pub left: usize,
}

pub fn walk(network: &Network, source: u64, header: &[u8], choices: &[u8]) -> Result<Walk, Refusal> {
    let mut s = match network.home(source) {
        Some(s) => s,
        None => return refuse(4),
    };
    if header.len() > MOST_WORDS {
        return refuse(10);
    }
    if choices.len() < header.len() {
        return refuse(11);
    }
    let ended = |ending, at, hops, left| Ok(Walk { ending, at, hops, left });
    for (hops, word) in header.iter().enumerate() {
        let left = header.len() - hops;
        let ports: Vec<usize> = ports_of(*word).collect();
        if ports.is_empty() {
            return ended(Ending::Empty, s as u64, hops, left);
        }
        match network.far[s][ports[choices[hops] as usize % ports.len()]] {
            Entry::Switch(t) => s = t,
            Entry::Processor(a) if left == 1 => return ended(Ending::Delivered, a, hops + 1, 0),
            Entry::Processor(a) => return ended(Ending::Leftover, a, hops + 1, left - 1),
            _ => return ended(Ending::Off, s as u64, hops, left),
        }
    }
    ended(Ending::Short, s as u64, header.len(), 0)
}

pub struct Fields {
    pub table: Vec<u16>,
    pub pairs_at: usize,
    pub pairs: Vec<(u16, u16)>,
}

/// The fields, or refusal 12 at the first bad one; unless pairs are allowed, a tag 2 is bad.
pub fn fields(bytes: &[u8], pairs_allowed: bool) -> Result<Fields, Refusal> {
    let two = |i: usize| bytes[i] as u16 * 256 + bytes[i + 1] as u16;
    let mut found = Fields { table: Vec::new(), pairs_at: bytes.len(), pairs: Vec::new() };
    let mut at = 0;
    while at < bytes.len() {
        let bad = Err(Refusal { number: 12, place: at });
        if bytes.len() < at + 3 || bytes.len() < at + 3 + two(at + 1) as usize {
            return bad;
        }
        match (bytes[at], two(at + 1)) {
            (1, 16) if found.pairs.is_empty() && found.table.len() < MOST_ENTRIES => {
                found.table.extend((0..8).map(|p| two(at + 3 + 2 * p)));
                at += 19;
            }
            (2, 4) if pairs_allowed => {
                found.pairs_at = found.pairs_at.min(at);
                found.pairs.push((two(at + 3), two(at + 5)));
                at += 7;
            }
            _ => return bad,
        }
    }
    Ok(found)
}
