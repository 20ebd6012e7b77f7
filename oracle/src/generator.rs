//! Random sessions from fixed seeds, as input lines of the command.
//!
//! A kind and a seed fix a set of well-formed updates. The plain session offers them in the kind's
//! own order, the shuffled one in another order; each has its own repeats, malformed updates and
//! garbage lines between. Both leave the same set, so both must give one report. (Kind `full` has
//! more than 64 updates: the same 64 come first in both of its sessions.)

use crate::ledger::{hex, Standing, PLACES};
use crate::sha256::sha256;
use crate::update::{read_update, Id, Tag, ZERO};
use std::collections::BTreeSet;

pub const KINDS: [&str; 15] = [
    "honest",    // authors that name the heads of what they have seen
    "fork",      // the same, some authors write from two or three views at once
    "void",      // void updates and cascades below them
    "reversed",  // successors before predecessors
    "missing",   // some updates are never offered
    "repeat",    // many updates offered again
    "malformed", // many malformed updates between
    "garbage",   // many lines that do not read as offers between
    "full",      // more than 64 updates
    "zero",      // zero anchors, zero ids as predecessors and as named ids
    "list",      // deep and wide insert trees with equal ranks, deletes, deletes twice
    "set",       // few tags, removes of none, some or all of their adds
    "wide",      // more than eight heads, eight predecessors, eight named ids
    "dense",     // random predecessors and random named ids
    "mixed",     // everything
];

/// SplitMix64.
pub struct Rng(u64);

impl Rng {
    pub fn new(seed: u64, stream: &str) -> Rng {
        let mut rng = Rng(seed);
        for byte in stream.bytes() {
            rng.0 = rng.next() ^ byte as u64;
        }
        rng
    }
    fn next(&mut self) -> u64 {
        self.0 = self.0.wrapping_add(0x9e37_79b9_7f4a_7c15);
        let mut z = self.0;
        z = (z ^ (z >> 30)).wrapping_mul(0xbf58_476d_1ce4_e5b9);
        z = (z ^ (z >> 27)).wrapping_mul(0x94d0_49bb_1331_11eb);
        z ^ (z >> 31)
    }
    pub fn below(&mut self, n: usize) -> usize {
        (self.next() % n as u64) as usize
    }
    /// From `low` to `high`, both included.
    pub fn range(&mut self, low: usize, high: usize) -> usize {
        low + self.below(high - low + 1)
    }
    pub fn percent(&mut self, p: usize) -> bool {
        self.below(100) < p
    }
    fn pick<T: Copy>(&mut self, from: &[T]) -> Option<T> {
        if from.is_empty() {
            None
        } else {
            Some(from[self.below(from.len())])
        }
    }
    pub fn shuffle<T>(&mut self, items: &mut [T]) {
        for i in (1..items.len()).rev() {
            items.swap(i, self.below(i + 1));
        }
    }
    fn bytes<const N: usize>(&mut self) -> [u8; N] {
        std::array::from_fn(|_| self.next() as u8)
    }
    /// An index into `weights`, as likely as its weight.
    fn weighted(&mut self, weights: &[usize]) -> usize {
        let mut at = self.below(weights.iter().sum());
        for (i, &w) in weights.iter().enumerate() {
            if at < w {
                return i;
            }
            at -= w;
        }
        unreachable!()
    }
}

/// An operation to be written: tag; tag and named ids; anchor and value; named id.
#[derive(Clone)]
pub enum Op {
    Add(Tag),
    Remove(Tag, Vec<Id>),
    Insert(Id, Tag),
    Delete(Id),
}

/// The bytes of an update.
pub fn encode(author: u8, predecessors: &[Id], op: &Op) -> Vec<u8> {
    let mut bytes = vec![1, author, predecessors.len() as u8];
    bytes.extend(predecessors.concat());
    match op {
        Op::Add(tag) => {
            bytes.push(1);
            bytes.extend(tag);
        }
        Op::Remove(tag, named) => {
            bytes.push(2);
            bytes.extend(tag);
            bytes.push(named.len() as u8);
            bytes.extend(named.concat());
        }
        Op::Insert(anchor, value) => {
            bytes.push(3);
            bytes.extend(anchor);
            bytes.extend(value);
        }
        Op::Delete(id) => {
            bytes.push(4);
            bytes.extend(id);
        }
    }
    bytes
}

/// A made update; the numbers in `ancestors` are positions in `World::made`.
struct Made {
    bytes: Vec<u8>,
    id: Id,
    op: Op,
    author: u8,
    ancestors: BTreeSet<usize>,
    /// What its maker meant it to be once everything made has been offered, if it knew.
    meant: Option<Standing>,
}

/// An author with the updates it has seen; a forker is one author number with several views.
struct Writer {
    author: u8,
    view: BTreeSet<usize>,
}

struct World {
    rng: Rng,
    made: Vec<Made>,
    writers: Vec<Writer>,
    tags: Vec<Tag>,
    /// Weights of Add, Remove, Insert, Delete.
    weights: [usize; 4],
    /// Percentage of Inserts under the newest seen Insert.
    deep: usize,
}

impl World {
    fn new(seed: u64, kind: &str) -> World {
        let mut rng = Rng::new(seed, kind);
        let mut tags: Vec<Tag> = (0..rng.range(1, 6)).map(|_| rng.bytes()).collect();
        if rng.percent(30) {
            tags.push([0; 16]);
        }
        if rng.percent(30) {
            tags.push([255; 16]);
        }
        World { rng, made: vec![], writers: vec![], tags, weights: [4, 2, 4, 2], deep: 30 }
    }

    /// `count` writers with different authors, then `forks` more of authors already there.
    fn people(&mut self, count: usize, forks: usize) {
        let mut authors: Vec<u8> = (0..16).collect();
        self.rng.shuffle(&mut authors);
        for i in 0..count + forks {
            let author = if i < count { authors[i] } else { authors[self.rng.below(count)] };
            self.writers.push(Writer { author, view: BTreeSet::new() });
        }
    }

    fn position(&self, id: &Id) -> Option<usize> {
        self.made.iter().position(|m| m.id == *id)
    }

    /// The given updates with all their ancestors.
    fn closure(&self, of: &[usize]) -> BTreeSet<usize> {
        let mut all = BTreeSet::new();
        for &u in of {
            all.insert(u);
            all.extend(&self.made[u].ancestors);
        }
        all
    }

    /// Makes an update; None if the very same one was made before.
    fn make(&mut self, author: u8, mut predecessors: Vec<Id>, op: Op, meant: Option<Standing>) -> Option<usize> {
        predecessors.sort();
        predecessors.dedup();
        assert!(predecessors.len() <= 8);
        let bytes = encode(author, &predecessors, &op);
        let id = sha256(&bytes);
        if self.position(&id).is_some() {
            return None;
        }
        let known: Vec<usize> = predecessors.iter().filter_map(|p| self.position(p)).collect();
        let ancestors = self.closure(&known);
        self.made.push(Made { bytes, id, op, author, ancestors, meant });
        Some(self.made.len() - 1)
    }

    fn ids(&self, of: &[usize]) -> Vec<Id> {
        of.iter().map(|&u| self.made[u].id).collect()
    }

    /// The heads of a set that contains all its ancestors, ascending by id.
    fn heads(&self, view: &BTreeSet<usize>) -> Vec<usize> {
        let mut heads: Vec<usize> =
            view.iter().copied().filter(|u| !view.iter().any(|v| self.made[*v].ancestors.contains(u))).collect();
        heads.sort_by_key(|&u| self.made[u].id);
        heads
    }

    /// What a writer names: its heads; of more than eight, first "the lowest head at or above that
    /// author's held update of highest rank (on a tie, larger id), then the lowest others".
    fn named_heads(&self, writer: usize) -> Vec<usize> {
        let Writer { author, view } = &self.writers[writer];
        let mut heads = self.heads(view);
        if heads.len() > 8 {
            let own = view.iter().copied().filter(|&u| self.made[u].author == *author);
            if let Some(last) = own.max_by_key(|&u| (self.made[u].ancestors.len(), self.made[u].id)) {
                let at = heads.iter().position(|&h| h == last || self.made[h].ancestors.contains(&last)).unwrap();
                let first = heads.remove(at);
                heads.insert(0, first);
            }
            heads.truncate(8);
        }
        heads
    }

    fn inserts(&self, among: &BTreeSet<usize>) -> Vec<usize> {
        among.iter().copied().filter(|&u| matches!(self.made[u].op, Op::Insert(..))).collect()
    }
    fn adds(&self, among: &BTreeSet<usize>, wanted: Option<Tag>) -> Vec<usize> {
        let matches = |op: &Op| matches!(op, Op::Add(tag) if wanted.is_none_or(|w| w == *tag));
        among.iter().copied().filter(|&u| matches(&self.made[u].op)).collect()
    }
    fn everything(&self) -> BTreeSet<usize> {
        (0..self.made.len()).collect()
    }
    fn outside(&self, ancestors: &BTreeSet<usize>) -> BTreeSet<usize> {
        self.everything().difference(ancestors).copied().collect()
    }
    fn tag(&mut self) -> Tag {
        self.rng.pick(&self.tags).unwrap()
    }
    fn value(&mut self) -> Tag {
        if self.rng.percent(20) {
            self.tag()
        } else {
            self.rng.bytes()
        }
    }

    fn sorted(&self, of: &[usize]) -> Vec<Id> {
        let mut ids = self.ids(of);
        ids.sort();
        ids
    }

    /// An operation that is valid above these ancestors.
    fn valid_op(&mut self, ancestors: &BTreeSet<usize>) -> Op {
        let inserts = self.inserts(ancestors);
        match self.rng.weighted(&self.weights) {
            0 => Op::Add(self.tag()),
            1 => {
                let tag = self.tag();
                let mut adds = self.adds(ancestors, Some(tag));
                self.rng.shuffle(&mut adds);
                let most = adds.len().min(8);
                let m = if self.rng.percent(50) { most } else { self.rng.range(0, most) };
                Op::Remove(tag, self.sorted(&adds[..m]))
            }
            2 => {
                let anchor = if self.rng.percent(self.deep) {
                    inserts.last().copied()
                } else if self.rng.percent(60) {
                    self.rng.pick(&inserts)
                } else {
                    None
                };
                Op::Insert(anchor.map_or(ZERO, |a| self.made[a].id), self.value())
            }
            _ => match self.rng.pick(&inserts) {
                Some(u) => Op::Delete(self.made[u].id),
                None => Op::Add(self.tag()),
            },
        }
    }

    /// An operation that is void above these ancestors.
    fn void_op(&mut self, ancestors: &BTreeSet<usize>) -> Op {
        let outside = self.outside(ancestors);
        let no_inserts: Vec<usize> =
            ancestors.iter().copied().filter(|&u| !matches!(self.made[u].op, Op::Insert(..))).collect();
        let no_adds: Vec<usize> =
            ancestors.iter().copied().filter(|&u| !matches!(self.made[u].op, Op::Add(..))).collect();
        loop {
            let stranger = if self.rng.percent(30) { ZERO } else { self.rng.bytes() };
            let bad = match self.rng.below(8) {
                // Remove of an Add that is no ancestor, with its own tag.
                0 => self.rng.pick(&self.adds(&outside, None)).map(|u| match self.made[u].op {
                    Op::Add(tag) => Op::Remove(tag, vec![self.made[u].id]),
                    _ => unreachable!(),
                }),
                // Remove of an ancestor Add of another tag.
                1 => {
                    let tag = if self.rng.percent(50) { self.tag() } else { self.rng.bytes() };
                    let mut adds = self.adds(ancestors, None);
                    adds.retain(|&u| !matches!(self.made[u].op, Op::Add(t) if t == tag));
                    self.rng.pick(&adds).map(|u| Op::Remove(tag, vec![self.made[u].id]))
                }
                // Remove of an ancestor that is no Add.
                2 => {
                    let tag = self.tag();
                    self.rng.pick(&no_adds).map(|u| Op::Remove(tag, vec![self.made[u].id]))
                }
                // Remove of good ones and one bad one.
                3 => {
                    let tag = self.tag();
                    let mut adds = self.adds(ancestors, Some(tag));
                    adds.truncate(7);
                    let mut named = self.ids(&adds);
                    named.push(match self.rng.pick(&outside.iter().copied().collect::<Vec<_>>()) {
                        Some(u) if self.rng.percent(50) => self.made[u].id,
                        _ => stranger,
                    });
                    named.sort();
                    Some(Op::Remove(tag, named))
                }
                // Insert under an Insert that is no ancestor, or under no Insert.
                4 => self.rng.pick(&self.inserts(&outside)).map(|u| Op::Insert(self.made[u].id, self.tags[0])),
                5 => match self.rng.pick(&no_inserts) {
                    Some(u) if self.rng.percent(70) => Some(Op::Insert(self.made[u].id, self.tags[0])),
                    _ => Some(Op::Insert(self.rng.bytes(), self.tags[0])),
                },
                // Delete of an Insert that is no ancestor, or of no Insert.
                6 => self.rng.pick(&self.inserts(&outside)).map(|u| Op::Delete(self.made[u].id)),
                _ => match self.rng.pick(&no_inserts) {
                    Some(u) if self.rng.percent(70) => Some(Op::Delete(self.made[u].id)),
                    _ => Some(Op::Delete(stranger)),
                },
            };
            if let Some(op) = bad {
                return op;
            }
        }
    }

    /// A writer learns what another has seen, or one update of it with its ancestors.
    fn hear(&mut self, writer: usize) {
        let other = self.rng.below(self.writers.len());
        let mut news = self.writers[other].view.clone();
        if self.rng.percent(40) {
            let all: Vec<usize> = news.iter().copied().collect();
            news = self.rng.pick(&all).map_or(BTreeSet::new(), |u| self.closure(&[u]));
        }
        self.writers[writer].view.extend(news);
    }

    fn any_writer(&mut self) -> usize {
        self.rng.below(self.writers.len())
    }

    /// A held update: names the heads of its writer's view, with a valid operation.
    fn held_step(&mut self, hear: usize) {
        let w = self.any_writer();
        if self.rng.percent(hear) {
            self.hear(w);
        }
        let heads = self.named_heads(w);
        let ancestors = self.closure(&heads);
        let op = self.valid_op(&ancestors);
        let author = self.writers[w].author;
        if let Some(u) = self.make(author, self.ids(&heads), op, Some(Standing::Held)) {
            self.writers[w].view.insert(u);
        }
    }

    /// A void update above held ones; no view takes it in.
    fn void_step(&mut self) {
        let w = self.any_writer();
        if self.rng.percent(50) {
            self.hear(w);
        }
        let mut named = self.named_heads(w);
        let ancestors = self.closure(&named);
        let author = self.writers[w].author;
        // The antichain rule: a head's ancestor beside it.
        if self.rng.percent(35) {
            let below: Vec<usize> = ancestors.iter().copied().filter(|u| !named.contains(u)).collect();
            if let Some(low) = self.rng.pick(&below) {
                if named.len() == 8 {
                    // Any but the one that it is an ancestor of.
                    let at = named.iter().position(|&h| !self.made[h].ancestors.contains(&low));
                    named.remove(at.unwrap_or(0));
                }
                if named.iter().any(|&h| self.made[h].ancestors.contains(&low)) {
                    named.push(low);
                    let op = self.valid_op(&self.closure(&named));
                    self.make(author, self.ids(&named), op, Some(Standing::Void));
                    return;
                }
            }
        }
        let ancestors = self.closure(&named);
        let op = self.void_op(&ancestors);
        self.make(author, self.ids(&named), op, Some(Standing::Void));
    }

    fn meant(&self, standing: Standing) -> Vec<usize> {
        (0..self.made.len()).filter(|&u| self.made[u].meant == Some(standing)).collect()
    }

    /// An id that no update of the set has.
    fn stranger(&mut self) -> Id {
        if self.rng.percent(30) {
            ZERO
        } else {
            self.rng.bytes()
        }
    }

    /// Any operation on any made update or stranger.
    fn any_op(&mut self) -> Op {
        if self.rng.percent(70) {
            let all = self.everything();
            return self.valid_op(&all);
        }
        match self.rng.below(4) {
            0 => Op::Add(self.tag()),
            1 => Op::Remove(self.tag(), vec![self.stranger()]),
            2 => Op::Insert(self.stranger(), self.value()),
            _ => Op::Delete(self.stranger()),
        }
    }

    /// Up to seven others: held, void, waiting or missing.
    fn others(&mut self) -> Vec<Id> {
        let mut named = vec![];
        for _ in 0..[0, 0, 1, 2, 7][self.rng.below(5)] {
            if self.rng.percent(20) {
                named.push(self.stranger());
            } else if !self.made.is_empty() {
                named.push(self.made[self.rng.below(self.made.len())].id);
            }
        }
        named
    }

    /// A successor of a void update, whatever else it names.
    fn cascade_step(&mut self) {
        if let Some(void) = self.rng.pick(&self.meant(Standing::Void)) {
            let mut named = self.others();
            named.push(self.made[void].id);
            let op = self.any_op();
            let author = self.rng.below(16) as u8;
            self.make(author, named, op, Some(Standing::Void));
        }
    }

    /// An update that waits: some predecessor missing or waiting, none void.
    fn waiting_step(&mut self) {
        let mut named = match self.rng.pick(&self.meant(Standing::Waiting)) {
            Some(u) if self.rng.percent(50) => vec![self.made[u].id],
            _ => vec![self.stranger()],
        };
        let held = self.meant(Standing::Held);
        for _ in 0..self.rng.below(4) {
            if let Some(u) = self.rng.pick(&held) {
                named.push(self.made[u].id);
            }
        }
        let op = self.any_op();
        let author = self.rng.below(16) as u8;
        self.make(author, named, op, Some(Standing::Waiting));
    }

    /// Random predecessors, random operation; its maker does not know what comes of it.
    fn dense_step(&mut self) {
        let mut named = vec![];
        for _ in 0..[0, 1, 1, 1, 2, 2, 3, 8][self.rng.below(8)] {
            // Mostly recent ones.
            let count = self.made.len();
            if count > 0 {
                let back = if self.rng.percent(70) { self.rng.below(count.min(6)) } else { self.rng.below(count) };
                named.push(count - 1 - back);
            }
        }
        // Often an antichain.
        if self.rng.percent(80) {
            let all = self.closure(&named);
            named = self.heads(&all);
            named.truncate(8);
        }
        let closure = self.closure(&named);
        let op = if self.rng.percent(75) { self.valid_op(&closure) } else { self.any_op() };
        let mut ids = self.ids(&named);
        if ids.len() < 8 && self.rng.percent(4) {
            ids.push(self.stranger());
        }
        let author = self.rng.below(16) as u8;
        self.make(author, ids, op, None);
    }

    /// Nine to sixteen roots, adds of one tag, then updates above eight of them.
    fn wide(&mut self) {
        let roots = self.rng.range(9, 16);
        let tag = self.tag();
        for w in 0..roots {
            let author = self.writers[w % self.writers.len()].author;
            let op = if self.rng.percent(90) { Op::Add(tag) } else { Op::Insert(ZERO, self.value()) };
            if let Some(u) = self.make(author, vec![], op, Some(Standing::Held)) {
                for writer in &mut self.writers {
                    writer.view.insert(u);
                }
            }
        }
        let w = self.any_writer();
        let heads = self.named_heads(w);
        let adds = self.adds(&self.closure(&heads), Some(tag));
        let named = self.sorted(&adds[..adds.len().min(8)]);
        let author = self.writers[w].author;
        if let Some(u) = self.make(author, self.ids(&heads), Op::Remove(tag, named), Some(Standing::Held)) {
            self.writers[w].view.insert(u);
        }
    }
}

/// Everything the kind makes, in the order of making.
fn build(seed: u64, kind: &str) -> World {
    let mut world = World::new(seed, kind);
    let (count, forks) = match kind {
        "fork" => (world.rng.range(1, 4), world.rng.range(1, 4)),
        "list" => (world.rng.range(2, 8), world.rng.range(0, 2)),
        "wide" => (world.rng.range(1, 16), world.rng.range(0, 4)),
        "mixed" => (world.rng.range(1, 12), world.rng.range(0, 3)),
        _ => (world.rng.range(1, 6), 0),
    };
    world.people(count, forks);
    let target = match kind {
        "full" => world.rng.range(65, 90),
        "mixed" | "dense" => world.rng.range(1, 64),
        "list" | "set" | "wide" => world.rng.range(17, 50),
        _ => world.rng.range(1, 40),
    };
    match kind {
        "list" => {
            world.weights = [1, 0, 12, 3];
            world.deep = [0, 30, 60, 90][world.rng.below(4)];
        }
        "set" => world.weights = [6, 5, 0, 0],
        "zero" => world.weights = [2, 1, 6, 2],
        _ => {}
    }
    let hear = [5, 30, 60, 95][world.rng.below(4)];
    if kind == "wide" {
        world.wide();
    }
    let mut tries = 0;
    while world.made.len() < target && tries < 1000 {
        tries += 1;
        // Weights of held, void, cascade, waiting and dense steps.
        let steps = match kind {
            "void" => [5, 3, 3, 0, 0],
            "missing" => [8, 1, 1, 2, 0],
            "zero" => [5, 2, 1, 3, 0],
            "dense" => [0, 0, 0, 0, 1],
            "full" | "reversed" => [20, 1, 1, 1, 0],
            "repeat" | "malformed" | "garbage" => [10, 2, 2, 2, 0],
            "mixed" => [14, 2, 2, 1, 3],
            _ => [1, 0, 0, 0, 0],
        };
        match world.rng.weighted(&steps) {
            0 => world.held_step(hear),
            1 => world.void_step(),
            2 => world.cascade_step(),
            3 => world.waiting_step(),
            _ => world.dense_step(),
        }
    }
    world
}

/// The kind's well-formed updates, all different.
pub fn updates(seed: u64, kind: &str) -> Vec<Vec<u8>> {
    let mut world = build(seed, kind);
    let withheld = match kind {
        "missing" => 15,
        "dense" => 3,
        "mixed" => [0, 0, 10][world.rng.below(3)],
        _ => 0,
    };
    let World { mut rng, made, .. } = world;
    made.into_iter().map(|m| m.bytes).filter(|_| !rng.percent(withheld)).collect()
}

/// Bytes that are no update; aimed at the given refusal, which an earlier one may forestall.
fn malformed(rng: &mut Rng, base: &[u8], refusal: usize) -> Vec<u8> {
    let mut bytes = base.to_vec();
    let kind_at = 3 + 32 * bytes[2] as usize;
    match refusal {
        2 => match rng.below(5) {
            0 => bytes.truncate(rng.below(20)),
            1 => bytes.truncate(19),
            2 => bytes.resize(534, 0),
            3 => bytes.resize(rng.range(534, 996), 1),
            _ => bytes.clear(),
        },
        3 => bytes[0] = [0, 2, 255, 17][rng.below(4)],
        4 => bytes[1] = [16, 255, 17, 128][rng.below(4)],
        5 => bytes[2] = [9, 255, 10, 128][rng.below(4)],
        6 => {
            // A count that the length cannot hold, from just too high.
            let most = (bytes.len() - 3) / 32;
            let n = if rng.percent(50) { most + 1 } else { rng.range(most, 8.max(most)) };
            bytes[2] = n.min(8) as u8;
            bytes.truncate(3 + 32 * bytes[2] as usize);
        }
        7 => bytes[kind_at] = [0, 5, 255, 128][rng.below(4)],
        8 => match rng.below(7) {
            0 => {
                bytes.pop();
            }
            1 => bytes.push(0),
            2 => bytes.truncate(rng.range(kind_at + 1, bytes.len())),
            3 => bytes.extend(rng.bytes::<32>()),
            4 => {
                // m above 8, with as many ids as fit.
                bytes.truncate(kind_at);
                bytes.push(2);
                bytes.extend(rng.bytes::<16>());
                bytes.push([9, 10, 255][rng.below(3)]);
                while bytes.len() + 32 <= 533.min(kind_at + 18 + 9 * 32) {
                    bytes.extend(rng.bytes::<32>());
                }
            }
            5 => {
                // m missing
                bytes.truncate(kind_at);
                bytes.push(2);
                bytes.extend(rng.bytes::<16>());
            }
            _ => {
                // Another kind in the same length.
                bytes[kind_at] = rng.range(1, 4) as u8;
            }
        },
        9 => {
            let mut ids: Vec<Id> = (0..rng.range(2, 8)).map(|_| rng.bytes()).collect();
            ids.sort();
            match rng.below(3) {
                0 => ids.reverse(),
                1 => ids[1] = ids[0],
                _ => {
                    let last = ids.len() - 1;
                    ids.swap(last, last - 1);
                }
            }
            let op = if rng.percent(50) { Op::Add(rng.bytes()) } else { Op::Insert(ZERO, rng.bytes()) };
            bytes = match rng.below(2) {
                0 => encode(bytes[1], &ids, &op),
                _ => encode(bytes[1], &[ZERO], &Op::Remove(rng.bytes(), ids)),
            };
        }
        // Random bytes, with a likely beginning or none.
        _ => {
            let length = rng.range(0, 560);
            let start = rng.below(4);
            bytes = (0..length).map(|_| rng.next() as u8).collect();
            for (byte, likely) in bytes.iter_mut().zip([1, rng.below(17) as u8, rng.below(10) as u8]).take(start) {
                *byte = likely;
            }
        }
    }
    bytes
}

/// The line that offers these bytes, without newline.
pub fn offer(bytes: &[u8]) -> Vec<u8> {
    format!("(offer {})", hex(bytes)).into_bytes()
}

/// A malformed update, with one fault or several.
pub fn malformed_update(rng: &mut Rng, set: &[Vec<u8>]) -> Vec<u8> {
    loop {
        let root = encode(3, &[], &Op::Add(rng.bytes()));
        let base = if set.is_empty() || rng.percent(10) { &root } else { &set[rng.below(set.len())] };
        let refusal = rng.range(2, 10);
        let mut bytes = malformed(rng, base, refusal);
        if rng.percent(25) {
            // A second fault, to see which is named.
            match rng.below(4) {
                0 if !bytes.is_empty() => bytes[0] = 2,
                1 if bytes.len() > 1 => bytes[1] = 16,
                2 if bytes.len() > 2 => bytes[2] = 9,
                _ => bytes.truncate(rng.range(0, bytes.len())),
            }
        }
        if read_update(&bytes).is_err() {
            return bytes;
        }
    }
}

/// A line without newline that does not read as an offer of a well-formed update.
fn garbage_line(rng: &mut Rng, set: &[Vec<u8>]) -> Vec<u8> {
    let some = if set.is_empty() { vec![1; 20] } else { set[rng.below(set.len())].clone() };
    let good = offer(&some);
    let digits = good.len() - 8;
    match rng.below(26) {
        0 => vec![],
        1 => b"(hello)".to_vec(),
        2 => vec![0],
        3 => vec![255; rng.range(1, 40)],
        4 => {
            // Any bytes but the newline.
            (0..rng.below(120)).map(|_| rng.next() as u8).filter(|&b| b != b'\n').collect()
        }
        // One digit wrong: uppercase, no digit, a zero byte, a 255, a blank.
        5..=7 => {
            let mut line = good;
            let wrong = [b'A', b'F', b'g', b'/', b':', b'`', b'@', b'G', b' ', b'x', 0, 255, b')', b'('];
            line[7 + rng.below(digits)] = wrong[rng.below(wrong.len())];
            line
        }
        8 => {
            // All digits uppercase; the 01 at their start still needs one letter.
            let mut line = b"(offer ".to_vec();
            line.extend(hex(&some).to_uppercase().bytes());
            line.extend(b"F)");
            line
        }
        9 => {
            let mut line = good;
            line.remove(7 + rng.below(digits));
            line
        }
        10 => good[..good.len() - 1].to_vec(),
        11 => good[1..].to_vec(),
        12 => good[..rng.below(good.len())].to_vec(),
        13 => [b" ", &good[..]].concat(),
        14 => [&good[..], b" "].concat(),
        15 => [&good[..], b"\r"].concat(),
        16 => [&good[..], b")"].concat(),
        17 => [b"(offer  ", &good[7..]].concat(),
        18 => [b"(Offer ", &good[7..]].concat(),
        19 => [b"(offer\t", &good[7..]].concat(),
        20 => [b"(offer", &good[7..]].concat(),
        21 => [&good[..], &good[..]].concat(),
        22 => [&[0], &good[..]].concat(),
        // 2,000 characters and about it: as an offer, and not.
        23 => {
            let mut line = b"(offer ".to_vec();
            line.resize(7 + [1990, 1991, 1992, 1993, 1994, 2000][rng.below(6)], b'0');
            line.push(b')');
            line
        }
        24 => vec![b'('; [1999, 2000, 2001, 2002][rng.below(4)]],
        _ => {
            // A well-formed offer at the start, or at the end, of too long a line.
            let length = [2001, 2002, 5000, 70_000][rng.below(4)];
            let mut line = good;
            if rng.percent(50) {
                line.resize(length.max(line.len() + 1), b' ');
                line
            } else {
                let mut padded = vec![b' '; length];
                padded.append(&mut line);
                padded
            }
        }
    }
}

/// The whole input: lines, the last one perhaps without its newline.
pub fn session(seed: u64, kind: &str, shuffled: bool) -> Vec<u8> {
    let set = updates(seed, kind);
    let mut rng = Rng::new(seed, &format!("{kind} {}", if shuffled { "shuffled" } else { "plain" }));
    let mut order: Vec<usize> = (0..set.len()).collect();
    // 0 as made, 1 reversed, 2 shuffled, 3 nearly as made.
    let way = match kind {
        _ if shuffled => 2,
        "reversed" => 1,
        "missing" | "dense" | "mixed" | "repeat" => rng.below(4),
        _ => 0,
    };
    // Of more than 64, the same 64 come first.
    let (first, rest) = order.split_at_mut(set.len().min(PLACES));
    for part in [first, rest] {
        match way {
            1 => part.reverse(),
            2 => rng.shuffle(part),
            3 => {
                for i in 1..part.len() {
                    if rng.percent(30) {
                        part.swap(i, i - 1);
                    }
                }
            }
            _ => {}
        }
    }
    // Weights of stopping, a repeat, a malformed update and a garbage line before each offer.
    let between = match kind {
        "repeat" => [40, 50, 5, 5],
        "malformed" => [40, 5, 50, 5],
        "garbage" => [40, 5, 5, 50],
        "full" => [80, 10, 5, 5],
        _ => [94, 3, 2, 1],
    };
    let mut lines: Vec<Vec<u8>> = vec![];
    for at in 0..=order.len() {
        loop {
            match rng.weighted(&between) {
                0 => break,
                1 if at > 0 => lines.push(offer(&set[order[rng.below(at)]])),
                2 => lines.push(offer(&malformed_update(&mut rng, &set))),
                3 => lines.push(garbage_line(&mut rng, &set)),
                _ => {}
            }
        }
        if at < order.len() {
            lines.push(offer(&set[order[at]]));
        }
    }
    // Known and malformed ones when full.
    if kind == "full" {
        for _ in 0..10 {
            lines.push(offer(&set[rng.below(set.len())]));
            lines.push(offer(&malformed_update(&mut rng, &set)));
        }
    }
    let mut input = lines.join(&b'\n');
    if rng.percent(75) {
        input.push(b'\n');
    }
    input
}

#[cfg(test)]
mod tests {
    use super::*;
    use crate::ledger::{Answer, Ledger};

    /// What the makers meant their updates to be is what the rules give, whatever the order.
    #[test]
    fn standings_as_meant() {
        let mut seen = [0; 3];
        for kind in KINDS {
            for seed in 1..=100 {
                let World { made, .. } = build(seed, kind);
                let mut order: Vec<usize> = (0..made.len().min(PLACES)).collect();
                Rng::new(seed, "order").shuffle(&mut order);
                let mut ledger = Ledger::new();
                for u in order {
                    assert!(matches!(ledger.offer(&made[u].bytes), Answer::Taken { .. }));
                }
                for m in made.iter().take(PLACES) {
                    if let Some(meant) = m.meant {
                        assert_eq!(ledger.standing(&m.id), Some(meant), "{kind} {seed}");
                        seen[meant as usize] += 1;
                    }
                }
            }
        }
        assert!(seen.iter().all(|&n| n > 500), "{seen:?}");
    }

    /// Nothing but the set's own updates is well formed, and each of them is offered.
    #[test]
    fn sessions_offer_their_set() {
        for kind in KINDS {
            for seed in 1..=50 {
                let set: BTreeSet<Vec<u8>> = updates(seed, kind).into_iter().collect();
                assert!(kind == "full" || set.len() <= PLACES);
                for shuffled in [false, true] {
                    let mut offered = BTreeSet::new();
                    let mut bytes = vec![];
                    for line in session(seed, kind, shuffled).split(|&b| b == b'\n') {
                        if line.len() <= 2000
                            && crate::command::read_offer(line, &mut bytes)
                            && read_update(&bytes).is_ok()
                        {
                            offered.insert(bytes.clone());
                        }
                    }
                    assert!(offered == set, "{kind} {seed} {shuffled}");
                }
            }
        }
    }
}
