//! Document 02's E1: "A sack of updates in one call."

use crate::ledger::{Answer, Ledger};

/// "at most 64 items"
pub const ITEMS: usize = 64;

/// "six bytes per item"
pub const ANSWER: usize = 6;

/// 13: "a length runs past the end, an item is cut, or there are more than 64 items"
pub const BUNDLE: u32 = 13;

/// 11: "the answer buffer is short"
pub const SHORT: u32 = 11;

/// "each item a two-byte big-endian length, then its bytes, at most 64 items". None for bytes that do
/// not read so.
pub fn items(bundle: &[u8]) -> Option<Vec<&[u8]>> {
    let mut items = Vec::new();
    let mut rest = bundle;
    while !rest.is_empty() {
        // A single byte is no length.
        let (length, after) = (rest.get(..2)?, &rest[2..]);
        let length = u16::from_be_bytes([length[0], length[1]]) as usize;
        items.push(after.get(..length)?);
        rest = &after[length..];
    }
    (items.len() <= ITEMS).then_some(items)
}

/// "The six are: 0 taken, 1 known or 2 refused; then 0 held, 1 waiting, 2 void, or the refusal's
/// number; then the two counts, 16 bits big-endian each, zero unless taken."
pub fn answer_bytes(answer: Answer) -> [u8; ANSWER] {
    let (first, second, held, void) = match answer {
        Answer::Taken { standing, newly_held, newly_void } => (0, standing.byte(), newly_held, newly_void),
        Answer::Known { standing } => (1, standing.byte(), 0, 0),
        Answer::Refused { number } => (2, number as u8, 0, 0),
    };
    let [held_high, held_low] = (held as u16).to_be_bytes();
    let [void_high, void_low] = (void as u16).to_be_bytes();
    [first, second, held_high, held_low, void_high, void_low]
}

/// "The answers fill a lent buffer, six bytes per item, and equal those of single offers in the same
/// order". "An item turned away does not stop those after it." Gives how many bytes were written, at
/// the start of the buffer, or the number of the refusal. Row 1 cannot arise here.
pub fn offer_bundle(ledger: &mut Ledger, bundle: &[u8], answers: &mut [u8]) -> Result<usize, u32> {
    // 13 "comes after 1 and before any item is taken; 11 follows it"
    let items = items(bundle).ok_or(BUNDLE)?;
    let length = ANSWER * items.len();
    if answers.len() < length {
        return Err(SHORT);
    }
    for (item, answer) in items.iter().zip(answers.chunks_exact_mut(ANSWER)) {
        answer.copy_from_slice(&answer_bytes(ledger.offer(item)));
    }
    Ok(length)
}

#[cfg(test)]
mod tests {
    use super::*;
    use crate::generator::{encode, malformed_update, updates, Op, Rng, KINDS};
    use crate::ledger::{Form, Standing};
    use crate::sha256::sha256;

    /// An item of a bundle for each of these byte strings.
    fn lay_out(items: &[&[u8]]) -> Vec<u8> {
        items.iter().flat_map(|item| [&(item.len() as u16).to_be_bytes(), *item].concat()).collect()
    }

    /// Offers a bundle with a buffer of the length, filled with 165; gives the answer and the buffer.
    fn offer(ledger: &mut Ledger, bundle: &[u8], length: usize) -> (Result<usize, u32>, Vec<u8>) {
        let mut answers = vec![165; length];
        let answer = offer_bundle(ledger, bundle, &mut answers);
        (answer, answers)
    }

    /// Adds of different tags by the author 3, without predecessors.
    fn adds(count: u8) -> Vec<Vec<u8>> {
        (0..count).map(|tag| encode(3, &[], &Op::Add([tag; 16]))).collect()
    }

    fn slices(bytes: &[Vec<u8>]) -> Vec<&[u8]> {
        bytes.iter().map(|b| &b[..]).collect()
    }

    const HELD: [u8; 6] = [0, 0, 0, 1, 0, 0];

    #[test]
    fn the_items_of_a_bundle() {
        assert_eq!(items(b""), Some(vec![]));
        assert_eq!(items(b"\0\0"), Some(vec![&b""[..]]));
        assert_eq!(items(b"\0\x01a\0\0\0\x02bc"), Some(vec![&b"a"[..], b"", b"bc"]));
        // A length of two bytes, the first the higher.
        let long = [&[1, 2], &[7; 258][..]].concat();
        assert_eq!(items(&long), Some(vec![&[7; 258][..]]));
        let longest = [&[255, 255], &[7; 65_535][..]].concat();
        assert_eq!(items(&longest), Some(vec![&[7; 65_535][..]]));
        // A single byte where a length should be, at the beginning and after an item.
        assert_eq!(items(b"\0"), None);
        assert_eq!(items(b"\0\x01a\0"), None);
        // A length that runs past the end by one byte, by all its bytes, and an item that is cut.
        assert_eq!(items(b"\0\x02a"), None);
        assert_eq!(items(b"\0\x01"), None);
        assert_eq!(items(&longest[..65_536]), None);
        assert_eq!(items(b"\0\x01a\0\x02b"), None);
        // 64 items, 65, and 64 and a byte.
        assert_eq!(items(&[0; 128]).map(|items| items.len()), Some(64));
        assert_eq!(items(&[0; 130]), None);
        assert_eq!(items(&[0; 129]), None);
    }

    #[test]
    fn six_bytes_an_answer() {
        let taken = |standing, newly_held, newly_void| Answer::Taken { standing, newly_held, newly_void };
        assert_eq!(answer_bytes(taken(Standing::Held, 1, 0)), [0, 0, 0, 1, 0, 0]);
        assert_eq!(answer_bytes(taken(Standing::Waiting, 0, 0)), [0, 1, 0, 0, 0, 0]);
        assert_eq!(answer_bytes(taken(Standing::Void, 0, 64)), [0, 2, 0, 0, 0, 64]);
        assert_eq!(answer_bytes(taken(Standing::Held, 258, 772)), [0, 0, 1, 2, 3, 4]);
        assert_eq!(answer_bytes(Answer::Known { standing: Standing::Held }), [1, 0, 0, 0, 0, 0]);
        assert_eq!(answer_bytes(Answer::Known { standing: Standing::Waiting }), [1, 1, 0, 0, 0, 0]);
        assert_eq!(answer_bytes(Answer::Known { standing: Standing::Void }), [1, 2, 0, 0, 0, 0]);
        assert_eq!(answer_bytes(Answer::Refused { number: 10 }), [2, 10, 0, 0, 0, 0]);
    }

    #[test]
    fn no_items() {
        let mut ledger = Ledger::new();
        assert_eq!(offer(&mut ledger, b"", 0), (Ok(0), vec![]));
        assert_eq!(offer(&mut ledger, b"", 7), (Ok(0), vec![165; 7]));
        assert_eq!(ledger.report(Form::Full), Ledger::new().report(Form::Full));
    }

    /// b follows a, and c and d follow b; d names an update that is no ancestor. e deletes what is no Insert.
    #[test]
    fn each_kind_of_answer() {
        let a = encode(1, &[], &Op::Add([1; 16]));
        let b = encode(1, &[sha256(&a)], &Op::Add([2; 16]));
        let c = encode(2, &[sha256(&b)], &Op::Add([3; 16]));
        let d = encode(3, &[sha256(&b)], &Op::Delete([9; 32]));
        let e = encode(4, &[], &Op::Delete([9; 32]));
        let w = encode(5, &[[8; 32]], &Op::Add([4; 16]));
        let version = [&[2], &a[1..]].concat();
        let author = [&[1, 16], &a[2..]].concat();
        let bundle = lay_out(&[&c, &d, &b, &c, b"", &a, &version, &b, &d, &d, &author, &e, &w, &a, &w, &e]);
        let expected = [
            [0, 1, 0, 0, 0, 0], // c waits, and goes on waiting here though a holds it later
            [0, 1, 0, 0, 0, 0],
            [0, 1, 0, 0, 0, 0],
            [1, 1, 0, 0, 0, 0], // c again, before a
            [2, 2, 0, 0, 0, 0], // no bytes
            [0, 0, 0, 3, 0, 1], // a: a, b and c are held, d is void
            [2, 3, 0, 0, 0, 0],
            [1, 0, 0, 0, 0, 0],
            [1, 2, 0, 0, 0, 0],
            [1, 2, 0, 0, 0, 0],
            [2, 4, 0, 0, 0, 0],
            [0, 2, 0, 0, 0, 1],
            [0, 1, 0, 0, 0, 0],
            [1, 0, 0, 0, 0, 0],
            [1, 1, 0, 0, 0, 0],
            [1, 2, 0, 0, 0, 0],
        ];
        let mut ledger = Ledger::new();
        // Two bytes more than the answers keep their values.
        let (answer, answers) = offer(&mut ledger, &bundle, 98);
        assert_eq!((answer, &answers[..96], &answers[96..]), (Ok(96), &expected.concat()[..], &[165, 165][..]));
        assert_eq!(ledger.standing(&sha256(&c)), Some(Standing::Held));
        assert_eq!(ledger.standing(&sha256(&d)), Some(Standing::Void));
    }

    #[test]
    fn the_same_item_twice() {
        let add = encode(1, &[], &Op::Add([1; 16]));
        let (answer, answers) = offer(&mut Ledger::new(), &lay_out(&[&add, &add]), 12);
        assert_eq!((answer, answers), (Ok(12), [HELD, [1, 0, 0, 0, 0, 0]].concat()));
    }

    #[test]
    fn the_longest_item_is_an_ordinary_one() {
        let add = encode(1, &[], &Op::Add([1; 16]));
        let (answer, answers) = offer(&mut Ledger::new(), &lay_out(&[&[1; 65_535], &add]), 12);
        assert_eq!((answer, answers), (Ok(12), [[2, 2, 0, 0, 0, 0], HELD].concat()));
    }

    #[test]
    fn sixty_four_items_and_sixty_five() {
        let all = adds(65);
        let mut ledger = Ledger::new();
        assert_eq!(offer(&mut ledger, &lay_out(&slices(&all)), 390), (Err(13), vec![165; 390]));
        assert_eq!(ledger.standing(&sha256(&all[0])), None);
        assert_eq!(offer(&mut ledger, &lay_out(&slices(&all[..64])), 384), (Ok(384), HELD.repeat(64)));
        // The 65th update alone is refused for want of a place, and 65 items that are known as before.
        assert_eq!(offer(&mut ledger, &lay_out(&[&all[64]]), 6), (Ok(6), vec![2, 10, 0, 0, 0, 0]));
        assert_eq!(offer(&mut ledger, &lay_out(&[&all[0][..]; 65]), 390), (Err(13), vec![165; 390]));
        assert_eq!(offer(&mut ledger, &lay_out(&[&all[0][..]; 64]), 384), (Ok(384), [1, 0, 0, 0, 0, 0].repeat(64)));
    }

    /// Ten are there; of a bundle of 60 the first 54 take the last places.
    #[test]
    fn a_bundle_that_fills_the_ledger() {
        let all = adds(70);
        let mut ledger = Ledger::new();
        for add in &all[..10] {
            ledger.offer(add);
        }
        let (answer, answers) = offer(&mut ledger, &lay_out(&slices(&all[10..])), 360);
        assert_eq!(answer, Ok(360));
        assert_eq!(answers, [HELD.repeat(54), [2, 10, 0, 0, 0, 0].repeat(6)].concat());
        assert_eq!(ledger.standing(&sha256(&all[63])), Some(Standing::Held));
        assert_eq!(ledger.standing(&sha256(&all[64])), None);
    }

    /// "before any item is taken", and 13 before 11.
    #[test]
    fn a_refused_bundle_changes_nothing() {
        let all = adds(3);
        let bundle = lay_out(&slices(&all));
        let empty = Ledger::new().report(Form::Full);
        let mut ledger = Ledger::new();
        let mut refused = |bundle: &[u8], length: usize, number: u32| {
            assert_eq!(offer(&mut ledger, bundle, length), (Err(number), vec![165; length]));
            assert_eq!(ledger.report(Form::Full), empty);
        };
        // Three items of 20 bytes after their lengths: cut in the third, in its length, and a byte too many.
        refused(&bundle[..65], 18, 13);
        refused(&bundle[..45], 18, 13);
        refused(&[&bundle[..], &[0]].concat(), 18, 13);
        refused(&[&bundle[..44], &[0, 21], &bundle[46..]].concat(), 18, 13);
        for length in 0..18 {
            refused(&bundle, length, 11);
            refused(&bundle[..65], length, 13);
        }
        assert_eq!(offer(&mut ledger, &bundle, 18), (Ok(18), HELD.repeat(3)));
    }

    /// Bundles of every kind of updates, with malformed ones and repeats, some of them cut, against single offers.
    #[test]
    fn bundles_are_single_offers() {
        let (mut answered, mut cut, mut short) = (0, 0, 0);
        for kind in KINDS {
            for seed in 1..=20 {
                let mut rng = Rng::new(seed, &format!("bundles {kind}"));
                let set = updates(seed, kind);
                let mut offers = set.clone();
                for _ in 0..set.len() / 2 {
                    offers.push(malformed_update(&mut rng, &set));
                    offers.push(set[rng.below(set.len())].clone());
                }
                rng.shuffle(&mut offers);
                let (mut bundled, mut single) = (Ledger::new(), Ledger::new());
                let mut rest = &offers[..];
                while !rest.is_empty() {
                    let (now, later) = rest.split_at(rng.range(1, rest.len().min(70)));
                    rest = later;
                    let mut bundle = lay_out(&slices(now));
                    if rng.percent(20) {
                        bundle.truncate(rng.below(bundle.len()));
                    }
                    let mut expected = vec![165; rng.range(0, 6 * now.len() + 10)];
                    let found = offer(&mut bundled, &bundle, expected.len());
                    // How many items are whole, where the bundle ends with one of them.
                    let whole = (0..=now.len()).find(|&n| lay_out(&slices(&now[..n])).len() == bundle.len());
                    let answer = match whole {
                        Some(n) if n <= 64 && 6 * n <= expected.len() => {
                            let answers: Vec<u8> =
                                now[..n].iter().flat_map(|o| answer_bytes(single.offer(o))).collect();
                            expected[..6 * n].copy_from_slice(&answers);
                            answered += 1;
                            Ok(6 * n)
                        }
                        Some(n) if n <= 64 => {
                            short += 1;
                            Err(11)
                        }
                        _ => {
                            cut += 1;
                            Err(13)
                        }
                    };
                    assert_eq!(found, (answer, expected));
                    assert_eq!(bundled.report(Form::Full), single.report(Form::Full));
                }
            }
        }
        assert!(answered > 100 && cut > 100 && short > 100, "{answered} answered, {cut} cut, {short} short");
    }
}
