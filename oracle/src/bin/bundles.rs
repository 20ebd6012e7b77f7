//! `bundles PROGRAM`: runs PROGRAM, the edges program, on random scripts of offers and bundles, and compares its
//! whole output with what the rules give; and for each script with that of one that offers the same items one by
//! one, whose ledger and store must be the same at the end. Any difference, a crash, a missing program, another
//! number of scripts than stated or an answer that is too rare make the exit status non-zero.
//! `bundles print KIND SEED [single]`: one of the scripts. `bundles lines (bundle | offer)`: a script that offers what
//! the command's input lines from standard input offer, in one bundle or one by one.

use oracle::bundle::{items, BUNDLE, ITEMS};
use oracle::command::read_offer;
use oracle::generator::{Rng, KINDS};
use oracle::program::{find, rare, Comparison};
use oracle::script::{play, Run, SLOT_ROOM, STORE};
use oracle::sha256::sha256;
use oracle::update::Id;
use oracle::writer::{names, Script};
use std::collections::BTreeMap;
use std::io::{read_to_string, stdin};
use std::process::exit;

/// Scripts for each kind of updates.
const SCRIPTS_PER_KIND: u64 = 40;

/// The answers to items, by their first two bytes, and the refusals of bundles.
const ITEM_ANSWERS: [([u8; 2], &str); 15] = [
    ([0, 0], "taken held"),
    ([0, 1], "taken waiting"),
    ([0, 2], "taken void"),
    ([1, 0], "known held"),
    ([1, 1], "known waiting"),
    ([1, 2], "known void"),
    ([2, 2], "refused 2"),
    ([2, 3], "refused 3"),
    ([2, 4], "refused 4"),
    ([2, 5], "refused 5"),
    ([2, 6], "refused 6"),
    ([2, 7], "refused 7"),
    ([2, 8], "refused 8"),
    ([2, 9], "refused 9"),
    ([2, 10], "refused 10"),
];
const REFUSALS: [u32; 3] = [1, 11, 13];

/// Why a bundle is refused by 13.
const REASONS: [&str; 4] =
    ["a single byte left over", "a length past the end by one byte", "a length past the end by more", "over 64 items"];

/// The reason for a bundle that is refused so.
fn reason(bundle: &[u8]) -> &'static str {
    let mut rest = bundle;
    loop {
        let [high, low, after @ ..] = rest else { return REASONS[if rest.len() == 1 { 0 } else { 3 }] };
        let length = u16::from_be_bytes([*high, *low]) as usize;
        match after.get(length..) {
            Some(next) => rest = next,
            None => return REASONS[if after.len() + 1 == length { 1 } else { 2 }],
        }
    }
}

/// Notes what the last bundle has offered, and views buffer and store.
fn offered(script: &mut Script) {
    let last = script.run.bundles.last().unwrap();
    if last.answer.is_ok() {
        script.offered.extend(items(&last.bytes).unwrap().into_iter().map(<[u8]>::to_vec));
    }
    script.line("view");
}

/// Offers items in a bundle.
fn bundle(script: &mut Script, chunk: &[usize]) {
    script.command("bundle", &names(chunk));
    offered(script);
}

/// Offers a bundle that is laid out in these pieces; nothing where there are too many for the slots.
fn raw(script: &mut Script, pieces: &[Vec<u8>]) {
    let Some(slots) = script.slots(pieces.iter().map(Vec::as_slice)) else { return };
    script.command("raw", &slots);
    offered(script);
}

/// The pieces of a bundle: the length of each item and its bytes.
fn pieces(script: &Script, chunk: &[usize]) -> Vec<Vec<u8>> {
    let item = |&k: &usize| [(script.items[k].len() as u16).to_be_bytes().to_vec(), script.items[k].clone()];
    chunk.iter().flat_map(item).collect()
}

/// A damaged bundle; perhaps one that is whole by chance.
fn damage(rng: &mut Rng, pieces: &mut Vec<Vec<u8>>) {
    let last = pieces.len() - 1;
    let length = u16::from_be_bytes([pieces[last - 1][0], pieces[last - 1][1]]);
    match rng.below(8) {
        // The last item is cut, all of it too; and so is its length.
        0 => {
            let left = rng.below(pieces[last].len().max(1));
            pieces[last].truncate(left);
        }
        1 => {
            pieces.truncate(last);
            pieces[last - 1].truncate(1);
        }
        // The last length is one too much, or one too little, so that a byte is left over.
        2 => pieces[last - 1] = (length + 1).to_be_bytes().to_vec(),
        3 => pieces[last - 1] = length.saturating_sub(1).to_be_bytes().to_vec(),
        // A byte too many; a length with no bytes.
        4 => pieces.push(vec![rng.below(256) as u8]),
        5 => pieces.push(vec![0, rng.range(1, 255) as u8]),
        // Any length is another.
        6 => {
            let at = 2 * rng.below(pieces.len() / 2);
            let other = (0..2).map(|_| rng.below(256) as u8).collect();
            pieces[at] = [vec![255, 255], vec![pieces[at][1], pieces[at][0]], other][rng.below(3)].clone();
        }
        // The lengths of the whole bundle are one too much in their high byte.
        _ => pieces.iter_mut().step_by(2).for_each(|length| length[0] = 1 + length[0] % 255),
    }
}

/// Bundles of items that are refused, by a store of another length, a short buffer or damage; and repeats of items, 64
/// and more in a bundle.
fn refused(script: &mut Script, rng: &mut Rng, chunk: &[usize]) {
    let length = 6 * chunk.len();
    if rng.percent(10) {
        // Row 1, whatever else is wrong.
        script.store(STORE - 1);
        script.buffer([length, 0][rng.below(2)]);
        let mut pieces = pieces(script, chunk);
        damage(rng, &mut pieces);
        if rng.percent(50) {
            bundle(script, chunk);
        } else {
            raw(script, &pieces);
        }
        script.store(STORE);
    }
    if rng.percent(20) {
        script.buffer([length - 1, rng.below(length)][rng.below(2)]);
        bundle(script, chunk);
    }
    if rng.percent(35) {
        let mut pieces = pieces(script, chunk);
        damage(rng, &mut pieces);
        // 13 comes before 11.
        script.buffer([length + 6, length, rng.below(length)][rng.below(3)]);
        raw(script, &pieces);
    }
    if rng.percent(10) {
        let many: Vec<usize> = (0..rng.range(ITEMS, ITEMS + 3)).map(|k| chunk[k % chunk.len()]).collect();
        script.buffer([6 * many.len(), 384, 0][rng.below(3)]);
        bundle(script, &many);
    }
}

/// A script of single offers and bundles, some of them refused.
fn bundles(seed: u64, kind: &str) -> Script {
    let mut rng = Rng::new(seed, &format!("bundles {kind}"));
    let mut script = Script::new();
    let count = script.lay_out_items(&mut rng, seed, kind);
    let all = script.offers(&mut rng, count);
    let mut rest = &all[..];
    if rng.percent(20) {
        script.buffer(rng.below(8));
        bundle(&mut script, &[]);
    }
    while !rest.is_empty() {
        let most = [8, 30, ITEMS, ITEMS + 4][rng.below(4)].min(rest.len());
        let (chunk, later) = rest.split_at(if rng.percent(10) { most } else { rng.range(1, most) });
        rest = later;
        if rng.percent(20) {
            script.offer(chunk);
        } else {
            refused(&mut script, &mut rng, chunk);
            script.buffer(6 * chunk.len() + [0, 0, 1, 5, 6, 100][rng.below(6)]);
            if rng.percent(70) {
                bundle(&mut script, chunk);
            } else {
                let pieces = pieces(&script, chunk);
                raw(&mut script, &pieces);
            }
        }
        if rng.percent(30) {
            script.line(&format!("ask {}", all[rng.below(all.len())]));
        }
        if rng.percent(15) {
            script.report();
        }
    }
    script.end();
    script
}

/// The script that offers one by one what another has offered.
fn single(seed: u64, kind: &str, other: &Script) -> String {
    let mut rng = Rng::new(seed, &format!("bundles {kind}"));
    let mut script = Script::new();
    script.lay_out_items(&mut rng, seed, kind);
    for bytes in &other.offered {
        // What no slot takes is no update.
        let name = script.slot(&bytes[..bytes.len().min(SLOT_ROOM)], &[]).unwrap();
        script.line(&format!("offer {name}"));
    }
    script.end();
    script.text
}

/// From the last view on: buffer, store and report.
fn end(output: &[u8]) -> Option<&[u8]> {
    let start = b"(buffer ";
    (0..output.len()).rev().find(|&at| output[at..].starts_with(start)).map(|at| &output[at..])
}

#[derive(Default)]
struct Tally {
    /// Scripts whose end is that of the single offers.
    same: usize,
    bundles: usize,
    items: usize,
    answers: BTreeMap<[u8; 2], usize>,
    refusals: BTreeMap<u32, usize>,
    reasons: BTreeMap<&'static str, usize>,
}

impl Tally {
    /// Counts the bundles of a run.
    fn count(&mut self, run: &Run) {
        self.bundles += run.bundles.len();
        for bundle in &run.bundles {
            match &bundle.answer {
                Err(number) => {
                    *self.refusals.entry(*number).or_default() += 1;
                    if *number == BUNDLE {
                        *self.reasons.entry(reason(&bundle.bytes)).or_default() += 1;
                    }
                }
                Ok(answers) => {
                    for six in answers.chunks(6) {
                        self.items += 1;
                        *self.answers.entry([six[0], six[1]]).or_default() += 1;
                    }
                }
            }
        }
    }

    /// Prints how often each answer was given; true if one is too rare.
    fn rare(&self) -> bool {
        let items = ITEM_ANSWERS.map(|(six, name)| (name.to_string(), self.answers.get(&six)));
        let bundles = REFUSALS.map(|number| (format!("bundle refused {number}"), self.refusals.get(&number)));
        let reasons = REASONS.map(|reason| (format!("bundle refused 13, {reason}"), self.reasons.get(reason)));
        rare(items.into_iter().chain(bundles).chain(reasons))
    }
}

/// Lays out updates so that an id comes after the slot with its update, as far as that goes; gives their slots.
fn lay_out_followers_last(script: &mut Script, updates: &[Vec<u8>]) -> Vec<usize> {
    let ids: Vec<Id> = updates.iter().map(|update| sha256(update)).collect();
    let names = |update: &[u8], id: &Id| update.windows(32).any(|bytes| bytes == id);
    let mut slots = vec![0; updates.len()];
    let mut left: Vec<usize> = (0..updates.len()).collect();
    while !left.is_empty() {
        let free = left.iter().position(|&k| !left.iter().any(|&other| names(&updates[k], &ids[other])));
        let k = left.remove(free.unwrap_or(0));
        slots[k] = script.items.len();
        script.item(updates[k].clone());
    }
    slots
}

fn lines(command: &str) {
    let input = read_to_string(stdin()).unwrap_or_else(|_| usage());
    let offered = |line: &str| {
        let mut bytes = vec![];
        read_offer(line.as_bytes(), &mut bytes).then_some(bytes)
    };
    let updates: Vec<Vec<u8>> = input.lines().filter_map(offered).collect();
    let mut script = Script::new();
    let slots = lay_out_followers_last(&mut script, &updates);
    script.buffer(6 * slots.len());
    match command {
        "bundle" => bundle(&mut script, &slots),
        "offer" => script.offer(&slots),
        _ => usage(),
    }
    script.end();
    print!("{}", script.text);
}

fn print(kind: &str, seed: &str, form: Option<&str>) {
    let (Ok(seed), true) = (seed.parse(), KINDS.contains(&kind)) else { usage() };
    let script = bundles(seed, kind);
    match form {
        None => print!("{}", script.text),
        Some("single") => print!("{}", single(seed, kind, &script)),
        Some(_) => usage(),
    }
}

fn usage() -> ! {
    eprintln!("usage: bundles PROGRAM, bundles print KIND SEED [single], or bundles lines (bundle | offer)");
    exit(2);
}

fn main() {
    let args: Vec<String> = std::env::args().skip(1).collect();
    let args: Vec<&str> = args.iter().map(String::as_str).collect();
    match args[..] {
        [program] => compare(program),
        ["lines", command] => lines(command),
        ["print", kind, seed] => print(kind, seed, None),
        ["print", kind, seed, form] => print(kind, seed, Some(form)),
        _ => usage(),
    }
}

fn compare(program: &str) {
    let mut comparison = Comparison::new(find(program));
    let mut tally = Tally::default();
    for kind in KINDS {
        for seed in 1..=SCRIPTS_PER_KIND {
            let script = bundles(seed, kind);
            tally.count(&script.run);
            let single = single(seed, kind, &script);
            let singly = play(&single).output;
            let name = format!("{kind} {seed}");
            let first = comparison.compare(&name, script.text, &script.run.output);
            let second = comparison.compare(&format!("{name} single"), single, &singly);
            match (first.as_deref().and_then(end), second.as_deref().and_then(end)) {
                (Some(first), Some(second)) if first == second => tally.same += 1,
                _ => comparison.differs(&name, "bundles and single offers, two ends"),
            }
        }
    }
    let sets = KINDS.len() * SCRIPTS_PER_KIND as usize;
    comparison.print(2 * sets);
    println!("the same store and report as by single offers: {} of {sets}", tally.same);
    println!("bundles: {}, items answered: {}", tally.bundles, tally.items);
    let rare = tally.rare();
    comparison.end(2 * sets, rare);
}
