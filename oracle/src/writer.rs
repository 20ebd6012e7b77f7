//! Random scripts of the edges program, played as they are written.

use crate::generator::{malformed_update, updates, Rng};
use crate::script::{Run, SCRIPT_ROOM, SLOT_ROOM, STORE};
use crate::sha256::sha256;
use crate::update::Id;
use std::collections::BTreeMap;

/// The slots 0 to 92 have what is offered. The others, a to z, have other bytes.
const ITEM_SLOTS: usize = 93;
const LETTERS: usize = 26;
/// The slots of what is offered take about this many bytes of a script at most.
const SLOTS_TEXT: usize = 40_000;

/// A script, played as it is written.
pub struct Script {
    pub text: String,
    pub run: Run,
    /// What is offered, and the slots of it by bytes and by id.
    pub items: Vec<Vec<u8>>,
    ids: BTreeMap<Id, usize>,
    /// The bytes of the slots a to z, and the slot that is set next.
    letters: Vec<Vec<u8>>,
    next: usize,
    /// What was offered singly, or in a bundle that was answered.
    pub offered: Vec<Vec<u8>>,
}

impl Default for Script {
    fn default() -> Self {
        Script::new()
    }
}

/// The name of a slot that a letter calls.
fn letter(k: usize) -> String {
    char::from(b'a' + k as u8).to_string()
}

impl Script {
    pub fn new() -> Script {
        let mut script = Script {
            text: String::new(),
            run: Run::new(),
            items: vec![],
            ids: BTreeMap::new(),
            letters: vec![vec![]; LETTERS],
            next: 0,
            offered: vec![],
        };
        script.store(STORE);
        script.line("fresh");
        script
    }

    pub fn line(&mut self, line: &str) {
        self.text += line;
        self.text += "\n";
        self.run.line(line);
    }

    /// A line of a command and the slots that it names.
    pub fn command<S: AsRef<str>>(&mut self, command: &str, slots: &[S]) {
        let words: Vec<&str> = std::iter::once(command).chain(slots.iter().map(AsRef::as_ref)).collect();
        self.line(&words.join(" "));
    }

    /// Parts that spell the bytes.
    fn parts(&self, bytes: &[u8]) -> String {
        let mut text = String::new();
        let mut at = 0;
        while at < bytes.len() {
            let id = bytes[at..].first_chunk::<32>().and_then(|id| self.ids.get(id));
            let same = bytes[at..].iter().take_while(|&&b| b == bytes[at]).count();
            let (part, length) = match (id, same) {
                (Some(slot), _) => (format!("id:{slot}"), 32),
                (None, 1) => (bytes[at].to_string(), 1),
                (None, n) => (format!("{}*{n}", bytes[at]), n),
            };
            text += " ";
            text += &part;
            at += length;
        }
        text
    }

    /// Puts what is offered into the next slot of a number.
    pub fn item(&mut self, bytes: Vec<u8>) {
        let slot = self.items.len();
        self.line(&format!("let {slot}{}", self.parts(&bytes)));
        self.ids.insert(sha256(&bytes), slot);
        self.items.push(bytes);
    }

    fn has_room(&self) -> bool {
        self.items.len() < ITEM_SLOTS && self.text.len() < SLOTS_TEXT
    }

    /// The items of a kind in the slots: its updates in the order of their making, then malformed ones. Gives how many
    /// of them are updates.
    pub fn lay_out_items(&mut self, rng: &mut Rng, seed: u64, kind: &str) -> usize {
        let set = updates(seed, kind);
        for update in &set {
            if self.has_room() {
                self.item(update.clone());
            }
        }
        let count = self.items.len();
        for _ in 0..rng.range(4, 16) {
            if self.has_room() {
                let mut bytes = malformed_update(rng, &set);
                // Still too long for an update.
                bytes.truncate(SLOT_ROOM);
                self.item(bytes);
            }
        }
        count
    }

    /// In which order the items are offered: with repeats and malformed ones between. The first `count` are updates.
    pub fn offers(&self, rng: &mut Rng, count: usize) -> Vec<usize> {
        let mut order: Vec<usize> = (0..count).collect();
        match rng.below(3) {
            0 => {}
            1 => order.reverse(),
            _ => rng.shuffle(&mut order),
        }
        let malformed = self.items.len() - count;
        let mut offers = vec![];
        for k in order {
            offers.push(k);
            if rng.percent(20) {
                offers.push(offers[rng.below(offers.len())]);
            }
            if malformed > 0 && rng.percent(20) {
                offers.push(count + rng.below(malformed));
            }
        }
        offers
    }

    /// A slot with these bytes. It may be set anew, but is then none of `used`; None where all letters are.
    pub fn slot(&mut self, bytes: &[u8], used: &[String]) -> Option<String> {
        if let Some(k) = self.items.iter().position(|item| item == bytes) {
            return Some(k.to_string());
        }
        if let Some(k) = self.letters.iter().position(|letter| letter == bytes) {
            return Some(letter(k));
        }
        let k = (self.next..self.next + LETTERS).map(|k| k % LETTERS).find(|&k| !used.contains(&letter(k)))?;
        self.line(&format!("let {}{}", letter(k), self.parts(bytes)));
        self.letters[k] = bytes.to_vec();
        self.next = k + 1;
        Some(letter(k))
    }

    /// Slots with these pieces; None where there are too many.
    pub fn slots<'a>(&mut self, pieces: impl IntoIterator<Item = &'a [u8]>) -> Option<Vec<String>> {
        let mut slots = vec![];
        for piece in pieces.into_iter().filter(|piece| !piece.is_empty()) {
            slots.push(self.slot(piece, &slots)?);
        }
        Some(slots)
    }

    /// Offers items one by one.
    pub fn offer(&mut self, chunk: &[usize]) {
        self.command("offer", &names(chunk));
        self.offered.extend(chunk.iter().map(|&k| self.items[k].clone()));
    }

    pub fn store(&mut self, length: usize) {
        self.line(&format!("store {length}"));
    }

    pub fn buffer(&mut self, length: usize) {
        self.line(&format!("buffer {length}"));
    }

    pub fn report(&mut self) {
        self.buffer(12_000);
        self.line("full");
    }

    /// The end of every script: the store, and the full report.
    pub fn end(&mut self) {
        self.buffer(12_000);
        self.line("view");
        self.line("full");
        assert!(self.text.len() < SCRIPT_ROOM);
    }
}

/// The names of the slots of items.
pub fn names(chunk: &[usize]) -> Vec<String> {
    chunk.iter().map(usize::to_string).collect()
}
