//! `lookups PROGRAM`: runs PROGRAM, the edges program, on random scripts of offers and lookups, and compares its whole
//! output with what the rules give. Any difference, a crash, a missing program, another number of scripts than stated
//! or an answer that is too rare make the exit status non-zero.
//! `lookups print KIND SEED`: one of the scripts.

use oracle::bundle::SHORT;
use oracle::generator::{Rng, KINDS};
use oracle::lookup::{LAYOUT, UNORDERED};
use oracle::program::{find, rare, Comparison};
use oracle::script::{Lookup, Run, SLOT_ROOM, STORE};
use oracle::sha256::sha256;
use oracle::update::{ids, strictly_ascending, Id};
use oracle::writer::Script;
use std::cmp::Ordering;
use std::collections::BTreeMap;
use std::process::exit;

/// Scripts for each kind of updates.
const SCRIPTS_PER_KIND: u64 = 27;
/// Between offers, lookups are added to a script of fewer bytes; and at its end to one of fewer than these.
const TEXT: usize = 50_000;
const LAST_TEXT: usize = 57_000;
/// The most ids of a spread here.
const SPREAD: usize = 300;

/// 1: "store not 34,112 bytes"
const UNFIT: u32 = 1;
const REFUSALS: [u32; 4] = [UNFIT, LAYOUT, UNORDERED, SHORT];
/// Why a lookup is refused by 9.
const REASONS: [&str; 2] = ["no id below the one before it, two the same", "an id below the one before it"];
const STANDINGS: [&str; 4] = ["held", "waiting", "void", "unknown"];

/// How a walk that was answered ends.
const ENDS: [&str; 5] =
    ["nothing stored", "nothing asked", "the stored ids end first", "the asked ids end first", "both end together"];

fn end_of(lookup: &Lookup) -> &'static str {
    let asked = ids(&lookup.asked).pop();
    ENDS[match (lookup.last, asked) {
        (None, _) => 0,
        (_, None) => 1,
        (Some(stored), Some(asked)) => match stored.cmp(&asked) {
            Ordering::Less => 2,
            Ordering::Greater => 3,
            Ordering::Equal => 4,
        },
    }]
}

/// The reason for a lookup that is refused so.
fn reason(lookup: &Lookup) -> &'static str {
    REASONS[ids(&lookup.asked).windows(2).any(|w| w[1] < w[0]) as usize]
}

/// The rows that apply to a lookup. Of bytes that are no multiple of 32, rows 9 and 11 look at the whole ids.
fn rows(lookup: &Lookup) -> Vec<u32> {
    let asked = ids(&lookup.asked);
    let apply = [!lookup.fits, lookup.asked.len() % 32 != 0, !strictly_ascending(&asked), lookup.room < asked.len()];
    REFUSALS.into_iter().zip(apply).filter_map(|(row, applies)| applies.then_some(row)).collect()
}

/// An id that differs from another in one byte, mostly in the last.
fn near(rng: &mut Rng, id: &Id) -> Id {
    let mut near = *id;
    let at = if rng.percent(70) { 31 } else { rng.below(32) };
    near[at] = if rng.percent(50) { near[at].wrapping_add(1) } else { near[at].wrapping_sub(1) };
    near
}

/// An id of no update.
fn unknown(rng: &mut Rng) -> Id {
    let mut id = [[0, rng.below(256) as u8, 255][rng.below(3)]; 32];
    id[0] = if rng.percent(80) { rng.below(256) as u8 } else { id[0] };
    id
}

/// Ids to look up, ascending: stored ones and their neighbours, those of other items, unknown ones; all, some or none.
fn wanted(script: &Script, rng: &mut Rng) -> Vec<Id> {
    let stored = script.run.stored();
    let percent = [0, 10, 50, 90, 100][rng.below(5)];
    let mut wanted: Vec<Id> = stored.iter().copied().filter(|_| rng.percent(percent)).collect();
    if rng.percent(30) {
        return wanted;
    }
    for _ in 0..rng.below(8) {
        let id = match (stored.get(rng.below(stored.len().max(1))), rng.below(3)) {
            (Some(id), 0) => near(rng, id),
            (_, 1) => sha256(&script.items[rng.below(script.items.len())]),
            _ => unknown(rng),
        };
        wanted.push(id);
    }
    wanted.sort();
    wanted.dedup();
    wanted
}

/// The same ids with two that are equal or descend; two where there are none.
fn disordered(rng: &mut Rng, wanted: &[Id]) -> Vec<Id> {
    let mut ids = wanted.to_vec();
    if ids.is_empty() {
        ids.push(unknown(rng));
    }
    let at = rng.below(ids.len());
    let id = ids[at];
    match rng.below(4) {
        0 => ids.insert(at, id),
        1 => ids.insert(at + 1, near(rng, &id)),
        2 => ids.push(ids[0]),
        _ => ids.reverse(),
    }
    ids
}

/// Bytes that are no multiple of 32, where these are one.
fn uneven(rng: &mut Rng, mut bytes: Vec<u8>) -> Vec<u8> {
    if rng.percent(50) && !bytes.is_empty() {
        bytes.truncate(bytes.len() - [1, 31, rng.range(1, 31)][rng.below(3)]);
    } else {
        bytes.extend(vec![rng.below(256) as u8; [1, 31, rng.range(1, 31)][rng.below(3)]]);
    }
    bytes
}

/// Looks up the ids that the bytes are, from slots that have whole ids or are cut anywhere; then views the buffer.
fn look_up(script: &mut Script, rng: &mut Rng, bytes: &[u8]) {
    let length = if rng.percent(80) { 32 * rng.range(8, 19) } else { rng.range(300, SLOT_ROOM) };
    let slots = script.slots(bytes.chunks(length)).expect("slots for the ids");
    script.command("lookup", &slots);
    script.line("view");
}

/// Lookups that are refused, by a store of another length, by their bytes or by a short buffer; by several too.
fn refused(script: &mut Script, rng: &mut Rng, wanted: &[Id]) {
    let count = wanted.len();
    let (even, ascending) = (rng.percent(50), rng.percent(50));
    let ids = if ascending { wanted.to_vec() } else { disordered(rng, wanted) };
    let bytes = if even { ids.concat() } else { uneven(rng, ids.concat()) };
    let unfit = rng.percent(25);
    if unfit {
        script.store([STORE - 1, STORE + 1][rng.below(2)]);
    }
    script.buffer([count + 1, count, count.saturating_sub(1), rng.below(count + 1)][rng.below(4)]);
    look_up(script, rng, &bytes);
    if unfit {
        script.store(STORE);
    }
}

/// Looks ids up, some of them in vain.
fn lookups(script: &mut Script, rng: &mut Rng) {
    let wanted = wanted(script, rng);
    if rng.percent(60) {
        refused(script, rng, &wanted);
    }
    script.buffer(wanted.len() + [0, 0, 1, 5, 100][rng.below(5)]);
    look_up(script, rng, &wanted.concat());
    if rng.percent(30) {
        // Fewer ids, and the buffer as it is.
        let fewer: Vec<Id> = wanted.into_iter().filter(|_| rng.percent(60)).collect();
        look_up(script, rng, &fewer.concat());
    }
}

/// A spread in one call and one by one.
fn spread(script: &mut Script, rng: &mut Rng) {
    let count = rng.below(SPREAD);
    let room = [count, count + 9, rng.below(count + 1)][rng.below(3)];
    for command in ["spread", "asks"] {
        script.buffer(room);
        script.line(&format!("{command} {count}"));
        script.line("view");
    }
}

/// A script of offers and lookups, some of them refused.
fn script(seed: u64, kind: &str) -> Script {
    let mut rng = Rng::new(seed, &format!("lookups {kind}"));
    let mut script = Script::new();
    let count = script.lay_out_items(&mut rng, seed, kind);
    let all = script.offers(&mut rng, count);
    let mut rest = &all[..];
    if rng.percent(30) {
        lookups(&mut script, &mut rng);
    }
    while !rest.is_empty() {
        let most = [8, 30, 70][rng.below(3)].min(rest.len());
        let (chunk, later) = rest.split_at(rng.range(1, most));
        rest = later;
        script.offer(chunk);
        if script.text.len() < TEXT {
            lookups(&mut script, &mut rng);
        }
        if rng.percent(15) {
            spread(&mut script, &mut rng);
        }
    }
    while script.text.len() < LAST_TEXT && rng.percent(80) {
        lookups(&mut script, &mut rng);
    }
    script.end();
    script
}

#[derive(Default)]
struct Tally {
    lookups: usize,
    ids: usize,
    /// By the byte.
    answers: BTreeMap<u8, usize>,
    /// By the row, and by that row and one after it that applies too.
    refusals: BTreeMap<u32, usize>,
    before: BTreeMap<(u32, u32), usize>,
    reasons: BTreeMap<&'static str, usize>,
    ends: BTreeMap<&'static str, usize>,
}

impl Tally {
    /// Counts the lookups of a run.
    fn count(&mut self, run: &Run) {
        self.lookups += run.lookups.len();
        for lookup in &run.lookups {
            let rows = rows(lookup);
            match &lookup.answer {
                Err(number) => {
                    assert_eq!(rows.first(), Some(number));
                    *self.refusals.entry(*number).or_default() += 1;
                    rows[1..].iter().for_each(|&row| *self.before.entry((*number, row)).or_default() += 1);
                    if *number == UNORDERED {
                        *self.reasons.entry(reason(lookup)).or_default() += 1;
                    }
                }
                Ok(answers) => {
                    assert!(rows.is_empty());
                    self.ids += answers.len();
                    answers.iter().for_each(|&byte| *self.answers.entry(byte).or_default() += 1);
                    *self.ends.entry(end_of(lookup)).or_default() += 1;
                }
            }
        }
    }

    /// Prints how often each answer was given; true if one is too rare.
    fn rare(&self) -> bool {
        let pairs = REFUSALS.into_iter().flat_map(|row| REFUSALS.map(|after| (row, after)));
        let before = pairs
            .filter(|(row, after)| row < after)
            .map(|pair| (format!("refused {} where {} applies too", pair.0, pair.1), self.before.get(&pair)));
        let answers = (0..).zip(STANDINGS).map(|(byte, name)| (format!("{byte} {name}"), self.answers.get(&byte)));
        let refusals = REFUSALS.into_iter().map(|row| (format!("refused {row}"), self.refusals.get(&row)));
        let reasons = REASONS.into_iter().map(|reason| (format!("refused 9, {reason}"), self.reasons.get(reason)));
        let ends = ENDS.into_iter().map(|end| (end.to_string(), self.ends.get(end)));
        rare(answers.chain(refusals).chain(before).chain(reasons).chain(ends))
    }
}

fn compare(program: &str) {
    let mut comparison = Comparison::new(find(program));
    let mut tally = Tally::default();
    for kind in KINDS {
        for seed in 1..=SCRIPTS_PER_KIND {
            let script = script(seed, kind);
            tally.count(&script.run);
            comparison.compare(&format!("{kind} {seed}"), script.text, &script.run.output);
        }
    }
    let scripts = KINDS.len() * SCRIPTS_PER_KIND as usize;
    comparison.print(scripts);
    println!("lookups: {}, ids answered: {}", tally.lookups, tally.ids);
    let rare = tally.rare();
    comparison.end(scripts, rare);
}

fn usage() -> ! {
    eprintln!("usage: lookups PROGRAM, or lookups print KIND SEED");
    exit(2);
}

fn main() {
    let args: Vec<String> = std::env::args().skip(1).collect();
    let args: Vec<&str> = args.iter().map(String::as_str).collect();
    match args[..] {
        [program] => compare(program),
        ["print", kind, seed] => {
            let (Ok(seed), true) = (seed.parse(), KINDS.contains(&kind)) else { usage() };
            print!("{}", script(seed, kind).text);
        }
        _ => usage(),
    }
}
