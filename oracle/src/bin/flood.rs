//! `flood KIND BYTES`: an input for bench/command.sh to standard output: the lines of its kind, over
//! and over until BYTES are reached (with 0 once).

use oracle::generator::{encode, offer, Op};
use oracle::ledger::PLACES;
use oracle::sha256::sha256;
use oracle::update::{Id, Tag};
use std::io::{stdout, Write};
use std::process::ExitCode;

const TAG: Tag = *b"an hour of mill.";

/// Ascending ids.
fn ids(updates: &[Vec<u8>]) -> Vec<Id> {
    let mut ids: Vec<Id> = updates.iter().map(|u| sha256(u)).collect();
    ids.sort();
    ids
}

/// Eight Adds of one tag, then layers of eight Removes, each after the whole layer before it and
/// naming the eight Adds: 56 updates of the full 533 bytes. In this order each is held at once.
fn updates() -> Vec<Vec<u8>> {
    let mut all: Vec<Vec<u8>> = (0..8).map(|author| encode(author, &[], &Op::Add(TAG))).collect();
    let adds = ids(&all);
    while all.len() < PLACES {
        let before = ids(&all[all.len() - 8..]);
        all.extend((0..8).map(|author| encode(author, &before, &Op::Remove(TAG, adds.clone()))));
    }
    all
}

/// A full-size update with one fault, for each refusal from 2 to 9.
fn malformed() -> Vec<Vec<u8>> {
    let all = updates();
    let with = |change: fn(&mut Vec<u8>)| {
        let mut bytes = all[PLACES - 1].clone();
        change(&mut bytes);
        bytes
    };
    vec![
        with(|b| b.push(0)),
        with(|b| b[0] = 2),
        with(|b| b[1] = 16),
        with(|b| b[2] = 9),
        with(|b| b.truncate(259)),
        with(|b| b[259] = 5),
        with(|b| b.truncate(532)),
        // The last named id is the one before it.
        with(|b| b.copy_within(469..501, 501)),
    ]
}

/// The lines of a kind.
fn lines(kind: &str) -> Option<Vec<Vec<u8>>> {
    let mut offers: Vec<Vec<u8>> = updates().iter().map(|u| offer(u)).collect();
    Some(match kind {
        "ordered" => offers,
        "reversed" => {
            offers.reverse();
            offers
        }
        "hello" => vec![b"(hello)".to_vec(); 1000],
        "digit" => {
            // No digit where the last one of a full-size offer stands.
            let mut line = offers.remove(PLACES - 1);
            let last = line.len() - 2;
            line[last] = b'g';
            vec![line]
        }
        "malformed" => malformed().iter().map(|u| offer(u)).collect(),
        _ => return None,
    })
}

fn main() -> ExitCode {
    let args: Vec<String> = std::env::args().skip(1).collect();
    let parsed = match &args[..] {
        [kind, bytes] => lines(kind).zip(bytes.parse::<usize>().ok()),
        _ => None,
    };
    let Some((lines, bytes)) = parsed else {
        eprintln!("usage: flood (ordered | reversed | hello | digit | malformed) BYTES");
        return ExitCode::from(2);
    };
    let once: Vec<u8> = lines.iter().flat_map(|line| [&line[..], b"\n"].concat()).collect();
    let times = bytes.div_ceil(once.len()).max(1);
    for _ in 0..times {
        if stdout().write_all(&once).is_err() {
            return ExitCode::FAILURE;
        }
    }
    ExitCode::SUCCESS
}

#[cfg(test)]
mod tests {
    use super::*;
    use oracle::ledger::{Answer, Ledger, Standing};

    #[test]
    fn all_held_in_order() {
        let all = updates();
        assert_eq!(all.iter().filter(|u| u.len() == 533).count(), 56);
        let mut ledger = Ledger::new();
        for update in all {
            let taken = Answer::Taken { standing: Standing::Held, newly_held: 1, newly_void: 0 };
            assert_eq!(ledger.offer(&update), taken);
        }
    }

    #[test]
    fn each_refusal() {
        let mut ledger = Ledger::new();
        for (bytes, number) in malformed().iter().zip(2..=9) {
            assert_eq!(ledger.offer(bytes), Answer::Refused { number });
        }
    }
}
