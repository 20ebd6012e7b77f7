//! `compare PROGRAM SESSIONS [limit]`: runs PROGRAM on the stored sessions in the folder SESSIONS
//! and on random ones, and compares its whole output with the oracle's. `limit` adds four inputs
//! that pass 4,294,967,296 bytes. Any difference, a crash, a missing program or another number of
//! cases than stated make the exit status non-zero.

use oracle::command;
use oracle::generator::{session, KINDS};
use oracle::program::{difference, run, run_fed, NO_END};
use oracle::sha256::sha256;
use std::collections::{BTreeMap, BTreeSet};
use std::path::{Path, PathBuf};
use std::process::exit;
use std::time::{Duration, Instant};

/// Stored sessions that must be there.
const STORED: usize = 47;
/// Random sets for each kind; each is offered in two orders, so gives two sessions.
const SETS_PER_KIND: u64 = 140;
/// Inputs that pass the limit.
const LIMITS: usize = 4;
/// Of the random sessions at least so many are distinct. (The two of a very small set may be the same.)
const DISTINCT: usize = 4_000;
/// Time for one run of PROGRAM that passes the input limit.
const LIMIT_TIMEOUT: Duration = Duration::from_secs(600);
/// After so many runs without an end the comparison stops.
const ENDLESS: usize = 3;
/// Differences shown in full.
const SHOWN: usize = 5;

/// Answers and report parts that the random sessions must show, each in at least 20 sessions.
const COVERED: [&str; 36] = [
    "(taken held 1 0)",
    "(taken held 2 0)",
    "(taken held 1 1)",
    "(taken waiting 0 0)",
    "(taken void 0 1)",
    "(taken void 0 2)",
    "(known held)",
    "(known waiting)",
    "(known void)",
    "(refused 2)",
    "(refused 3)",
    "(refused 4)",
    "(refused 5)",
    "(refused 6)",
    "(refused 7)",
    "(refused 8)",
    "(refused 9)",
    "(refused 10)",
    "(unread)",
    "some held",
    "over 8 heads",
    "some waiting",
    "some void",
    "some marks",
    "a mark for a fork",
    "a mark for a fault",
    "a mark for both",
    "a void update of an author without a fault",
    "some set",
    "a tag of 2 authors",
    "a tag of 3 authors",
    "a tag of authors 9 or below and 10 or above",
    "some list",
    "64 stored",
    "over 16 list",
    "2 marks",
];

fn oracle(input: &[u8]) -> Vec<u8> {
    let mut output = Vec::new();
    command::run(input, &mut output).expect("writing to memory");
    output
}

/// The tail from the line `(ledger 1`.
fn report(output: &[u8]) -> Option<&[u8]> {
    let start = b"(ledger 1\n";
    (0..output.len())
        .find(|&i| output[i..].starts_with(start) && (i == 0 || output[i - 1] == b'\n'))
        .map(|i| &output[i..])
}

struct Tally {
    /// Outputs of PROGRAM that were compared.
    compared: usize,
    failures: usize,
    endless: usize,
    seen: BTreeMap<&'static str, usize>,
}

impl Tally {
    fn fail(&mut self, name: &str, what: &str) {
        self.failures += 1;
        if self.failures <= SHOWN {
            println!("DIFFERENT {name}: {what}");
        }
        self.endless += (what == NO_END) as usize;
        if self.endless == ENDLESS {
            println!("FAILED: stopped after {ENDLESS} runs without an end");
            exit(1);
        }
    }

    /// Runs PROGRAM on an input and compares; gives its output if there is any.
    fn check(&mut self, program: &Path, name: &str, input: Vec<u8>, expected: &[u8]) -> Option<Vec<u8>> {
        match run(program, input) {
            Err(what) => {
                self.fail(name, &what);
                None
            }
            Ok(found) => {
                self.compared += 1;
                if found != expected {
                    self.fail(name, &difference(expected, &found));
                }
                Some(found)
            }
        }
    }

    /// Notes which of COVERED an output of the oracle shows.
    fn cover(&mut self, output: &[u8]) {
        let text = std::str::from_utf8(output).unwrap();
        let (answers, report) = text.split_at(text.find("(ledger 1\n").unwrap());
        // What the lines of a part have between their brackets; where that is two words, the two.
        let part = |name: &str| -> Vec<&str> {
            let start = report.find(&format!("\n({name}\n")).unwrap() + name.len() + 3;
            report[start..].lines().take_while(|&l| l != ")").map(|l| &l[1..l.len() - 1]).collect()
        };
        let pairs = |name: &str| part(name).into_iter().map(|l| l.split_once(' ').unwrap());
        let size = |name: &str| part(name).len();
        // The authors of each tag of the set, and the word of each marked author.
        let mut authors: BTreeMap<&str, Vec<u8>> = BTreeMap::new();
        for (tag, author) in pairs("set") {
            authors.entry(tag).or_default().push(author.parse().unwrap());
        }
        let marks: BTreeMap<&str, &str> = pairs("marks").collect();
        let marked = |word: &str| marks.values().any(|&w| w == word);
        let faulty = |author: &str| matches!(marks.get(author), Some(&"fault" | &"both"));
        for what in COVERED {
            let shown = match what {
                "some held" => size("held") > 0,
                "over 8 heads" => size("heads") > 8,
                "some waiting" => size("waiting") > 0,
                "some void" => size("void") > 0,
                "some marks" => size("marks") > 0,
                "2 marks" => size("marks") > 1,
                "a mark for a fork" => marked("fork"),
                "a mark for a fault" => marked("fault"),
                "a mark for both" => marked("both"),
                "a void update of an author without a fault" => pairs("void").any(|(_, author)| !faulty(author)),
                "some set" => size("set") > 0,
                "a tag of 2 authors" => authors.values().any(|by| by.len() > 1),
                "a tag of 3 authors" => authors.values().any(|by| by.len() > 2),
                "a tag of authors 9 or below and 10 or above" => {
                    authors.values().any(|by| by.iter().any(|&a| a < 10) && by.iter().any(|&a| a >= 10))
                }
                "some list" => size("list") > 0,
                "over 16 list" => size("list") > 16,
                "64 stored" => size("held") + size("waiting") + size("void") == 64,
                answer => answers.lines().any(|l| l == answer),
            };
            if shown {
                *self.seen.entry(what).or_default() += 1;
            }
        }
    }
}

/// Stored sessions: PROGRAM and the oracle against NAME.out. The number run.
fn stored(tally: &mut Tally, program: &Path, folder: &Path) -> usize {
    let mut inputs: Vec<PathBuf> = vec![];
    let mut outputs = 0;
    for entry in std::fs::read_dir(folder).into_iter().flatten().flatten() {
        match entry.path().extension().and_then(|e| e.to_str()) {
            Some("in") => inputs.push(entry.path()),
            Some("out") => outputs += 1,
            _ => {}
        }
    }
    inputs.sort();
    if inputs.len() != outputs {
        tally.fail("stored", &format!("{} inputs but {outputs} outputs", inputs.len()));
    }
    let mut count = 0;
    for path in inputs {
        let name = path.file_name().unwrap().to_string_lossy().to_string();
        let (Ok(input), Ok(expected)) = (std::fs::read(&path), std::fs::read(path.with_extension("out"))) else {
            tally.fail(&name, "cannot be read");
            continue;
        };
        let own = oracle(&input);
        if own != expected {
            tally.fail(&format!("{name} (oracle)"), &difference(&expected, &own));
        }
        tally.check(program, &name, input, &expected);
        count += 1;
    }
    count
}

/// Inputs that pass the limit: what PROGRAM must answer before an empty report. The number run.
fn limits(tally: &mut Tally, program: &Path) -> usize {
    let cases: [(&str, &str, &str); LIMITS] = [
        // The end of the input that still counts, what follows it, the answers.
        ("(offer ", ")\n(offer )\n", "(unread)\n(unread)\n"),
        ("(offer )", "0)\n(offer )\n", "(unread)\n(refused 2)\n"),
        ("(offer )\n", "(offer )\n", "(unread)\n(refused 2)\n"),
        ("", "(offer )\n(offer )\n", "(unread)\n"),
    ];
    let empty = oracle(b"");
    for (i, (tail, beyond, answers)) in cases.into_iter().enumerate() {
        // One line that fills the input up to the tail, its newline the last byte before.
        let filler = command::INPUT_LIMIT - tail.len() as u64 - 1;
        let result = run_fed(program, LIMIT_TIMEOUT, move |stdin| {
            let block = vec![b'x'; 1 << 16];
            let mut left = filler;
            while left > 0 {
                let n = left.min(block.len() as u64) as usize;
                stdin.write_all(&block[..n])?;
                left -= n as u64;
            }
            stdin.write_all(b"\n")?;
            stdin.write_all(tail.as_bytes())?;
            stdin.write_all(beyond.as_bytes())
        });
        let expected = [answers.as_bytes(), &empty].concat();
        let name = format!("limit {}", i + 1);
        tally.compared += result.is_ok() as usize;
        match result {
            Ok(found) if found == expected => {}
            Ok(found) => tally.fail(&name, &difference(&expected, &found)),
            Err(what) => tally.fail(&name, &what),
        }
    }
    cases.len()
}

fn main() {
    let args: Vec<String> = std::env::args().skip(1).collect();
    let with_limit = args.len() == 3 && args[2] == "limit";
    if !(args.len() == 2 || with_limit) {
        eprintln!("usage: compare PROGRAM SESSIONS [limit]");
        exit(2);
    }
    let program = match Path::new(&args[0]).canonicalize() {
        Ok(path) if path.is_file() => path,
        _ => {
            println!("FAILED: no program {}", args[0]);
            exit(1);
        }
    };
    let start = Instant::now();
    let mut tally = Tally { compared: 0, failures: 0, endless: 0, seen: BTreeMap::new() };
    let mut wrong = false;
    // One line for a group; true if another number than stated were run.
    let line = |tally: &Tally, before: usize, name: &str, count: usize, stated: usize| {
        println!("{name}: {count} of {stated} run, {} different", tally.failures - before);
        count != stated
    };

    let count = stored(&mut tally, &program, Path::new(&args[1]));
    wrong |= line(&tally, 0, "stored sessions", count, STORED);

    let mut same_report = 0;
    let mut sessions = BTreeSet::new();
    for kind in KINDS {
        let before = tally.failures;
        let mut count = 0;
        for seed in 1..=SETS_PER_KIND {
            let mut reports: Vec<Option<Vec<u8>>> = vec![];
            for shuffled in [false, true] {
                let name = format!("gen {seed} {kind}{}", if shuffled { " shuffled" } else { "" });
                let input = session(seed, kind, shuffled);
                sessions.insert(sha256(&input));
                let expected = oracle(&input);
                tally.cover(&expected);
                let found = tally.check(&program, &name, input, &expected);
                reports.push(found.and_then(|f| report(&f).map(<[u8]>::to_vec)));
                count += 1;
            }
            if reports[0].is_some() && reports[0] == reports[1] {
                same_report += 1;
            } else {
                tally.fail(&format!("gen {seed} {kind}"), "two orders, two reports");
            }
        }
        wrong |= line(&tally, before, &format!("random sessions, {kind}"), count, 2 * SETS_PER_KIND as usize);
    }
    let sets = KINDS.len() * SETS_PER_KIND as usize;
    println!("two orders, one report: {same_report} of {sets} sets");
    wrong |= same_report != sets;
    println!("distinct random sessions: {} of {}, at least {DISTINCT}", sessions.len(), 2 * sets);
    wrong |= sessions.len() < DISTINCT;

    let covered = COVERED.iter().filter(|what| tally.seen.get(**what).is_some_and(|&n| n >= 20)).count();
    println!("answers and report parts shown by the random sessions: {covered} of {}", COVERED.len());
    wrong |= covered != COVERED.len();

    if with_limit {
        let before = tally.failures;
        let count = limits(&mut tally, &program);
        wrong |= line(&tally, before, "inputs past the limit", count, LIMITS);
    }
    let stated = STORED + 2 * sets + if with_limit { LIMITS } else { 0 };
    let seconds = start.elapsed().as_secs_f64();
    println!("compared: {} of {stated} sessions, in {seconds:.1} s", tally.compared);
    wrong |= tally.compared != stated;
    if tally.failures > 0 || wrong {
        println!("FAILED: {} differences", tally.failures);
        exit(1);
    }
    println!("PASSED: no difference");
}
