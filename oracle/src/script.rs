//! Scripts of the edges program, `crates/test_edges`, whose `stdin` says how they read: what the commands
//! let, fresh, offer, ask, report, full, short, buffer, store, change, view, bundle, raw, lookup, spread and asks print
//! by the rules.

use crate::bundle::{items, offer_bundle};
use crate::ledger::{hex, Answer, Form, Ledger, Standing, PLACES};
use crate::lookup::{look_up, spread, UNKNOWN};
use crate::sha256::sha256;
use crate::update::Id;
use std::collections::BTreeMap;

/// The longest update: place k of the store begins at this many bytes times k.
const PLACE: usize = 533;
/// "a store of 34,112 bytes"
pub const STORE: usize = PLACE * PLACES;
/// What stores and output buffers are filled with.
const FILL: u8 = 165;
/// The largest lengths that a script can lend.
const STORE_ROOM: usize = STORE + 1;
const BUFFER_ROOM: usize = 12_000;
/// What a slot takes.
pub const SLOT_ROOM: usize = 638;
/// What a bundle takes, and what the ids of a lookup take.
const BUNDLE_ROOM: usize = 66_000;
/// The most ids of a spread.
const MOST_SPREAD: usize = 10_000;
/// Answers to ids in a line.
const LINE: usize = 32;
/// The longest script that the program reads.
pub const SCRIPT_ROOM: usize = 65_536;

/// A bundle that was offered.
pub struct Bundle {
    pub bytes: Vec<u8>,
    /// The answers, or the number of the refusal.
    pub answer: Result<Vec<u8>, u32>,
}

/// Ids that were looked up.
pub struct Lookup {
    /// Whether ledger and store fit.
    pub fits: bool,
    pub asked: Vec<u8>,
    /// The length of the output buffer.
    pub room: usize,
    /// The largest stored id.
    pub last: Option<Id>,
    /// The answers, or the number of the refusal.
    pub answer: Result<Vec<u8>, u32>,
}

/// A run of a script.
pub struct Run {
    slots: BTreeMap<String, Vec<u8>>,
    ledger: Ledger,
    /// How many places are taken.
    taken: usize,
    /// Whether the ledger is one that `change` has made unfit.
    unfit: bool,
    store: Vec<u8>,
    /// How many bytes of the store are lent.
    lent: usize,
    buffer: Vec<u8>,
    pub output: String,
    pub bundles: Vec<Bundle>,
    pub lookups: Vec<Lookup>,
}

impl Default for Run {
    fn default() -> Self {
        Run::new()
    }
}

impl Run {
    /// Before the first line: no byte of the store and of the buffer is lent.
    pub fn new() -> Run {
        Run {
            slots: BTreeMap::new(),
            ledger: Ledger::new(),
            taken: 0,
            unfit: false,
            store: vec![FILL; STORE_ROOM],
            lent: 0,
            buffer: vec![],
            output: String::new(),
            bundles: vec![],
            lookups: vec![],
        }
    }

    /// The bytes of a slot; a slot that was never set has none.
    fn slot(&self, name: &str) -> &[u8] {
        self.slots.get(name).map_or(&[], |bytes| bytes)
    }

    /// The bytes of slots end to end.
    fn end_to_end(&self, slots: &[&str]) -> Vec<u8> {
        slots.iter().flat_map(|slot| self.slot(slot).to_vec()).collect()
    }

    /// 1: "store not 34,112 bytes", or "over 64 places taken".
    fn fits(&self) -> bool {
        self.lent == STORE && !self.unfit
    }

    fn print(&mut self, line: &str) {
        self.output += &format!("({line})\n");
    }

    /// The bytes of a part: `77`, `77*16` or `id:a`.
    fn part(&self, part: &str) -> Vec<u8> {
        if let Some(name) = part.strip_prefix("id:") {
            return sha256(self.slot(name)).to_vec();
        }
        let (byte, times) = part.split_once('*').unwrap_or((part, "1"));
        vec![byte.parse().expect("a byte"); times.parse().expect("a number")]
    }

    /// An update that was taken lies in the next place.
    fn keep(&mut self, bytes: &[u8]) {
        let at = PLACE * self.taken;
        self.store[at..at + bytes.len()].copy_from_slice(bytes);
        self.taken += 1;
    }

    fn offer(&mut self, bytes: &[u8]) {
        if !self.fits() {
            return self.print("refused 1");
        }
        match self.ledger.offer(bytes) {
            Answer::Taken { standing, newly_held, newly_void } => {
                self.keep(bytes);
                self.print(&format!("taken {} {newly_held} {newly_void}", standing.word()));
            }
            Answer::Known { standing } => self.print(&format!("known {}", standing.word())),
            Answer::Refused { number } => self.print(&format!("refused {number}")),
        }
    }

    fn ask(&mut self, bytes: &[u8]) {
        let standing = match self.ledger.standing(&sha256(bytes)) {
            _ if !self.fits() => "refused 1",
            Some(standing) => standing.word(),
            None => "unknown",
        };
        self.print(&format!("standing {standing}"));
    }

    fn report(&mut self, form: Form) {
        let report = self.ledger.report(form);
        if !self.fits() {
            self.print("refused 1");
        } else if self.buffer.len() < report.len() {
            self.print("refused 11");
        } else {
            self.buffer[..report.len()].copy_from_slice(&report);
            self.output += std::str::from_utf8(&report).unwrap();
        }
    }

    fn view(&mut self) {
        let (buffer, store) = (sha256(&self.buffer), sha256(&self.store[..self.lent]));
        self.print(&format!("buffer {}", hex(&buffer)));
        self.print(&format!("store {}", hex(&store)));
    }

    fn offer_bundle(&mut self, bytes: Vec<u8>) {
        assert!(bytes.len() <= BUNDLE_ROOM);
        let answer = if self.fits() { offer_bundle(&mut self.ledger, &bytes, &mut self.buffer) } else { Err(1) };
        let answer = answer.map(|length| self.buffer[..length].to_vec());
        match &answer {
            Err(number) => self.print(&format!("refused {number}")),
            Ok(answers) => {
                self.print(&format!("answered {}", answers.len()));
                for (item, six) in items(&bytes).unwrap().into_iter().zip(answers.chunks(6)) {
                    // A first byte of 0 says that the item was taken.
                    if six[0] == 0 {
                        self.keep(item);
                    }
                    self.print(&hex(six));
                }
            }
        }
        self.bundles.push(Bundle { bytes, answer });
    }

    /// Looks ids up, and prints the count or the refusal; gives the answers.
    fn look_up(&mut self, asked: Vec<u8>) -> Option<Vec<u8>> {
        let fits = self.fits();
        let found = if fits { look_up(&self.ledger, &asked, &mut self.buffer) } else { Err(1) };
        match &found {
            Ok(comparisons) => self.print(&format!("compared {comparisons}")),
            Err(number) => self.print(&format!("refused {number}")),
        }
        let answer = found.map(|_| self.buffer[..asked.len() / 32].to_vec());
        let (room, last) = (self.buffer.len(), self.stored().pop());
        self.lookups.push(Lookup { fits, asked, room, last, answer: answer.clone() });
        answer.ok()
    }

    /// The ids that are stored, ascending.
    pub fn stored(&self) -> Vec<Id> {
        self.ledger.standings().into_iter().map(|(id, _)| id).collect()
    }

    fn lookup(&mut self, asked: Vec<u8>) {
        assert!(asked.len() <= BUNDLE_ROOM);
        let answers = self.look_up(asked).unwrap_or_default();
        answers.chunks(LINE).for_each(|line| self.print(&hex(line)));
    }

    fn digest(&mut self, answers: &[u8]) {
        self.print(&format!("answers {}", hex(&sha256(answers))));
    }

    fn spread(&mut self, count: usize) {
        if let Some(answers) = self.look_up(spread(count).concat()) {
            self.digest(&answers);
        }
    }

    /// The ids of a spread one by one.
    fn asks(&mut self, count: usize) {
        if count > 0 && !self.fits() {
            return self.print("refused 1");
        }
        let room = count.min(self.buffer.len());
        for (byte, id) in self.buffer[..room].iter_mut().zip(spread(count)) {
            *byte = self.ledger.standing(&id).map_or(UNKNOWN, Standing::byte);
        }
        self.print("asked");
        self.digest(&self.buffer[..room].to_vec());
    }

    /// Makes the ledger unfit by more places than there are, or fit again by the number that are taken.
    fn change(&mut self, used: usize) {
        assert!(used == self.taken || used > PLACES, "no change that is played");
        self.unfit = used > PLACES;
    }

    /// Plays a line.
    pub fn line(&mut self, line: &str) {
        if line.starts_with('#') {
            self.output += &format!("{line}\n");
            return;
        }
        if line.starts_with(';') {
            return;
        }
        // Two blanks begin a comment.
        let words: Vec<&str> = line.split(' ').take_while(|word| !word.is_empty()).collect();
        let number = |k: usize| words[k].parse::<usize>().expect("a number");
        match words[..] {
            [] => {}
            ["let", slot, ref parts @ ..] => {
                let bytes: Vec<u8> = parts.iter().flat_map(|part| self.part(part)).collect();
                assert!(bytes.len() <= SLOT_ROOM);
                self.slots.insert(slot.to_string(), bytes);
            }
            ["fresh"] => {
                self.ledger = Ledger::new();
                (self.taken, self.unfit) = (0, false);
                self.store[..self.lent].fill(FILL);
            }
            ["store", _] => self.lent = number(1).min(STORE_ROOM),
            ["buffer", _] => self.buffer = vec![FILL; number(1).min(BUFFER_ROOM)],
            ["offer", ref slots @ ..] => slots.iter().for_each(|slot| self.offer(&self.slot(slot).to_vec())),
            ["ask", slot] => self.ask(&self.slot(slot).to_vec()),
            ["report" | "short"] => self.report(Form::Short),
            ["full"] => self.report(Form::Full),
            ["view"] => self.view(),
            ["change", _, _, _, _] => self.change(number(1)),
            ["bundle", ref slots @ ..] => {
                let item = |slot: &&str| [&(self.slot(slot).len() as u16).to_be_bytes(), self.slot(slot)].concat();
                self.offer_bundle(slots.iter().flat_map(item).collect());
            }
            ["raw", ref slots @ ..] => self.offer_bundle(self.end_to_end(slots)),
            ["lookup", ref slots @ ..] => self.lookup(self.end_to_end(slots)),
            ["spread", _] => self.spread(number(1).min(MOST_SPREAD)),
            ["asks", _] => self.asks(number(1).min(MOST_SPREAD)),
            _ => panic!("no line that is played: {line}"),
        }
    }
}

/// Plays a script.
pub fn play(script: &str) -> Run {
    let mut run = Run::new();
    script.lines().for_each(|line| run.line(line));
    run
}

#[cfg(test)]
mod tests {
    use super::*;

    /// The headings of the first section on bundles and of the last one on lookups, which follow them; and of the one
    /// before them, whose slots they use.
    const FIRST: &str = "# a bundle of no items\n";
    const LAST: &str = "# 1 before 8, 9 and 11\n";
    const BEFORE: &str = "# the longest short report\n";

    /// Where the sections on bundles and lookups begin and end.
    fn sections(text: &str) -> (usize, usize) {
        let last = text.find(LAST).unwrap();
        (text.find(FIRST).unwrap(), text[last..].find("\n# ").map_or(text.len(), |next| last + next + 1))
    }

    /// What `crates/test_edges` has on bundles and lookups in its files `stdin` and `stdout`, which was worked out
    /// apart from this program.
    #[test]
    fn the_sections_on_bundles_and_lookups() {
        let stdin = include_str!("../../crates/test_edges/stdin");
        let stdout = include_str!("../../crates/test_edges/stdout");
        let (first, end) = sections(stdin);
        let mut run = Run::new();
        let slots = stdin[stdin.find(BEFORE).unwrap()..first].lines().filter(|line| line.starts_with("let "));
        slots.for_each(|line| run.line(line));
        stdin[first..end].lines().for_each(|line| run.line(line));
        let (first, end) = sections(stdout);
        assert_eq!(run.output, stdout[first..end]);
        assert!(run.bundles.len() >= 50);
        assert!(run.lookups.len() >= 100);
    }
}
