//! Document 02's E3: "one call take ids in strictly ascending order and write one byte for each".

use crate::bundle::SHORT;
use crate::ledger::{Ledger, Standing};
use crate::update::{ids, strictly_ascending, Id};
use std::cmp::Ordering;

/// 8: "bytes that are no multiple of 32"
pub const LAYOUT: u32 = 8;

/// 9: "ids not strictly ascending"
pub const UNORDERED: u32 = 9;

/// "3 unknown"
pub const UNKNOWN: u8 = 3;

/// The bytes of the asked ids, and how many comparisons of two ids were made.
#[derive(PartialEq, Eq, Debug)]
struct Walk {
    answers: Vec<u8>,
    comparisons: usize,
}

/// "It goes through the ledger's ids in ascending order beside the list": "the smaller id is passed, equal ids are
/// passed together, and the walk ends when either list does."
fn walk(stored: &[(Id, Standing)], asked: &[Id]) -> Walk {
    let mut answers = Vec::new();
    let mut comparisons = 0;
    let (mut stored, mut left) = (stored, asked);
    while let ([(id, standing), stored_after @ ..], [wanted, left_after @ ..]) = (stored, left) {
        comparisons += 1;
        let order = id.cmp(wanted);
        if order != Ordering::Greater {
            stored = stored_after;
        }
        if order != Ordering::Less {
            left = left_after;
            answers.push(if order == Ordering::Equal { standing.byte() } else { UNKNOWN });
        }
    }
    // What is left of the list has been beside no id of the ledger.
    answers.extend(left.iter().map(|_| UNKNOWN));
    Walk { answers, comparisons }
}

/// The same without a walk. Each comparison passes one id, of one list or of both; and all ids are passed that are not
/// above the last one of the list that ends first.
fn closed_form(ledger: &Ledger, asked: &[Id]) -> Walk {
    let answers = asked.iter().map(|id| ledger.standing(id).map_or(UNKNOWN, Standing::byte)).collect();
    let stored: Vec<Id> = ledger.standings().into_iter().map(|(id, _)| id).collect();
    let comparisons = match (stored.last(), asked.last()) {
        (Some(&s), Some(&a)) => {
            let unstored = asked.iter().filter(|id| ledger.standing(id).is_none());
            stored.iter().chain(unstored).filter(|&&id| id <= s.min(a)).count()
        }
        _ => 0,
    };
    Walk { answers, comparisons }
}

/// Puts a byte for each id at the start of the buffer, and gives the count of comparisons or the number of the refusal:
/// "1, then 8 for bytes that are no multiple of 32, then 9, then 11." Row 1 cannot arise here.
pub fn look_up(ledger: &Ledger, bytes: &[u8], out: &mut [u8]) -> Result<usize, u32> {
    if bytes.len() % 32 != 0 {
        return Err(LAYOUT);
    }
    let asked = ids(bytes);
    if !strictly_ascending(&asked) {
        return Err(UNORDERED);
    }
    if out.len() < asked.len() {
        return Err(SHORT);
    }
    let stored = ledger.standings();
    let found = walk(&stored, &asked);
    assert_eq!(found, closed_form(ledger, &asked));
    // "never exceeds stored plus asked"
    assert!(found.comparisons <= stored.len() + asked.len());
    out[..asked.len()].copy_from_slice(&found.answers);
    Ok(found.comparisons)
}

/// The ids of a spread, as `crates/test_edges` has them: the first four bytes of id k are k × (2^32 / count), the first
/// the highest, and the others zeros.
pub fn spread(count: usize) -> Vec<Id> {
    let id = |k: usize| {
        let mut id = [0; 32];
        id[..4].copy_from_slice(&((k * ((1 << 32) / count)) as u32).to_be_bytes());
        id
    };
    (0..count).map(id).collect()
}

#[cfg(test)]
mod tests {
    use super::*;
    use crate::generator::{encode, updates, Op, Rng, KINDS};
    use crate::sha256::sha256;

    /// Looks ids up with a buffer of the length, filled with 165; gives the answer and the buffer.
    fn ask(ledger: &Ledger, asked: &[u8], length: usize) -> (Result<usize, u32>, Vec<u8>) {
        let mut out = vec![165; length];
        let answer = look_up(ledger, asked, &mut out);
        (answer, out)
    }

    /// Ids of one byte 32 times each.
    fn repeated(bytes: &[u8]) -> Vec<u8> {
        bytes.iter().flat_map(|&b| [b; 32]).collect()
    }

    /// Walks beside stored ids of one byte each, all held.
    fn count(stored: &[u8], asked: &[u8]) -> (usize, Vec<u8>) {
        let stored: Vec<(Id, Standing)> = stored.iter().map(|&b| ([b; 32], Standing::Held)).collect();
        let found = walk(&stored, &ids(&repeated(asked)));
        (found.comparisons, found.answers)
    }

    #[test]
    fn comparisons_by_hand() {
        assert_eq!(count(&[], &[]), (0, vec![]));
        assert_eq!(count(&[1, 2], &[]), (0, vec![]));
        assert_eq!(count(&[], &[1, 2]), (0, vec![3, 3]));
        assert_eq!(count(&[5], &[5]), (1, vec![0]));
        assert_eq!(count(&[5], &[4]), (1, vec![3]));
        assert_eq!(count(&[5], &[6]), (1, vec![3]));
        // Equal ids are passed together; what is left of either list takes no comparison.
        assert_eq!(count(&[1, 2, 3], &[1, 2, 3]), (3, vec![0, 0, 0]));
        assert_eq!(count(&[1, 2, 3], &[1]), (1, vec![0]));
        assert_eq!(count(&[1], &[1, 2, 3]), (1, vec![0, 3, 3]));
        // One less than both lists have: 1 2 3 4 5 are passed, and 6 is left.
        assert_eq!(count(&[1, 3, 5], &[2, 4, 6]), (5, vec![3, 3, 3]));
        assert_eq!(count(&[2, 4, 6], &[1, 3, 5]), (5, vec![3, 3, 3]));
        assert_eq!(count(&[1, 2, 3], &[4]), (3, vec![3]));
        assert_eq!(count(&[4], &[1, 2, 3]), (3, vec![3, 3, 3]));
        assert_eq!(count(&[2, 4, 6], &[3, 4, 5]), (4, vec![3, 0, 3]));
    }

    #[test]
    fn each_byte() {
        let held = encode(1, &[], &Op::Add([1; 16]));
        let waiting = encode(1, &[[9; 32]], &Op::Add([1; 16]));
        let void = encode(1, &[], &Op::Delete([9; 32]));
        let mut ledger = Ledger::new();
        for bytes in [&held, &waiting, &void] {
            ledger.offer(bytes);
        }
        let mut asked =
            vec![(sha256(&held), 0), (sha256(&waiting), 1), (sha256(&void), 2), ([0; 32], 3), ([255; 32], 3)];
        asked.sort();
        let bytes: Vec<u8> = asked.iter().flat_map(|(id, _)| *id).collect();
        let mut answers: Vec<u8> = asked.iter().map(|&(_, answer)| answer).collect();
        // The last is above all that are stored, and is left.
        assert_eq!(ask(&ledger, &bytes, 5), (Ok(4), answers.clone()));
        answers.extend([165, 165]);
        assert_eq!(ask(&ledger, &bytes, 7), (Ok(4), answers));
    }

    #[test]
    fn the_order_of_the_refusals() {
        let ledger = Ledger::new();
        let refused = |asked: &[u8], length: usize, number: u32| {
            assert_eq!(ask(&ledger, asked, length), (Err(number), vec![165; length]));
        };
        for length in [1, 31, 33, 63, 65] {
            // Whatever the ids, and the buffer.
            refused(&vec![7; length], 3, 8);
            refused(&vec![7; length], 0, 8);
        }
        refused(&repeated(&[7, 7]), 2, 9);
        refused(&repeated(&[8, 7]), 2, 9);
        refused(&repeated(&[7, 9, 8]), 2, 9);
        refused(&repeated(&[7, 8, 8]), 0, 9);
        refused(&repeated(&[7, 8, 9]), 2, 11);
        refused(&repeated(&[7]), 0, 11);
        assert_eq!(ask(&ledger, &repeated(&[7, 8, 9]), 3), (Ok(0), vec![3; 3]));
        assert_eq!(ask(&ledger, &[], 0), (Ok(0), vec![]));
    }

    #[test]
    fn a_spread() {
        assert_eq!(spread(0), Vec::<Id>::new());
        assert_eq!(spread(1), [[0; 32]]);
        let first = |count: usize, k: usize| spread(count)[k][..5].to_vec();
        assert_eq!(first(2, 1), [128, 0, 0, 0, 0]);
        // 2^32 / 10,000 is 429,496, and 9,999 times that 4,294,530,504.
        assert_eq!(first(10_000, 1), [0, 6, 141, 184, 0]);
        assert_eq!(first(10_000, 9_999), [255, 249, 85, 200, 0]);
        assert!(strictly_ascending(&spread(10_000)));
    }

    /// Ledgers of every kind of updates, by the two ways that `look_up` compares.
    #[test]
    fn two_ways_of_counting() {
        for kind in KINDS {
            for seed in 1..=10 {
                let mut rng = Rng::new(seed, &format!("lookups {kind}"));
                let mut ledger = Ledger::new();
                for update in updates(seed, kind) {
                    ledger.offer(&update);
                    let mut asked: Vec<Id> = ledger.standings().into_iter().map(|(id, _)| id).collect();
                    asked.retain(|_| rng.percent(50));
                    asked.extend(spread(rng.below(100)).into_iter().filter(|_| rng.percent(30)));
                    asked.sort();
                    asked.dedup();
                    assert!(ask(&ledger, &asked.concat(), asked.len()).0.is_ok());
                }
            }
        }
    }
}
