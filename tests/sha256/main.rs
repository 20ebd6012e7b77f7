// Compares the exported function of crates/sha256_digest_c with NIST's examples and with a SHA-256 of its own.
//
//     sha256-test NIST-FILE VECTORS-FILE SYMBOLS-FILE [--independent-large]
//
// A line of the first two files is COUNT BYTES DIGEST: the message is BYTES, in hexadecimal or `-`
// for none, repeated COUNT times. The third has the library's symbols, as `nm --format=posix` lists
// them. The three messages of more than 500 MB go through our own code here only with
// --independent-large. One line for each group, and 'N passed, M failed' last.
mod fips;

use std::collections::HashSet;
use std::process::exit;

extern "C" {
    // pub extern "C" fn silkcliff_sha256(s: &[u8], out: &mut [u8]) -> usize
    fn silkcliff_sha256(s: *const u8, s_len: usize, out: *mut u8, out_len: usize) -> usize;
}

// The proved function on a message and an output buffer. It has no `requires`, and two Rust slices
// lent at once are apart, as its caller owes.
fn proved_into(s: &[u8], out: &mut [u8]) -> usize {
    unsafe { silkcliff_sha256(s.as_ptr(), s.len(), out.as_mut_ptr(), out.len()) }
}

fn proved(s: &[u8]) -> Result<[u8; 32], String> {
    let mut out = [0; 32];
    match proved_into(s, &mut out) {
        32 => Ok(out),
        n => Err(format!("returned {n} for a buffer of 32 bytes")),
    }
}

fn hex(bytes: &[u8]) -> String {
    bytes.iter().map(|b| format!("{b:02x}")).collect()
}

fn unhex(text: &str) -> Vec<u8> {
    assert!(text.len() % 2 == 0, "odd number of digits: {text}");
    (0..text.len()).step_by(2).map(|i| u8::from_str_radix(&text[i..i + 2], 16).expect("hexadecimal")).collect()
}

struct Example {
    line: String,
    count: usize,
    bytes: Vec<u8>,
    digest: String,
}

impl Example {
    fn length(&self) -> usize {
        self.count * self.bytes.len()
    }

    // Puts the message at the start of the buffer, which is at least as long.
    fn fill<'a>(&self, buffer: &'a mut [u8]) -> &'a [u8] {
        let message = &mut buffer[..self.length()];
        if let [byte] = self.bytes[..] {
            message.fill(byte);
        } else if !self.bytes.is_empty() {
            for part in message.chunks_mut(self.bytes.len()) {
                part.copy_from_slice(&self.bytes);
            }
        }
        message
    }
}

fn examples(path: &str) -> Vec<Example> {
    let text = std::fs::read_to_string(path).unwrap_or_else(|e| panic!("{path}: {e}"));
    let lines = text.lines().filter(|l| !l.starts_with('#') && !l.trim().is_empty());
    lines
        .map(|line| {
            let words: Vec<&str> = line.split(' ').collect();
            assert!(words.len() == 3 && words[2].len() == 64, "{path}: not COUNT BYTES DIGEST: {line}");
            Example {
                line: line.to_string(),
                count: words[0].parse().expect("a count"),
                bytes: if words[1] == "-" { Vec::new() } else { unhex(words[1]) },
                digest: words[2].to_string(),
            }
        })
        .collect()
}

const LARGE: usize = 500_000_000;

// Each example's digest by the proved function and by our own. Returns how many digests agree.
fn compare(examples: &[Example], independent_large: bool) -> Result<usize, String> {
    let mut buffer = vec![0; examples.iter().map(Example::length).max().unwrap_or(0)];
    let mut agreed = 0;
    for example in examples {
        let message = example.fill(&mut buffer);
        let found = hex(&proved(message)?);
        if found != example.digest {
            return Err(format!("{}: the proved digest is {found}", example.line));
        }
        agreed += 1;
        if message.len() < LARGE || independent_large {
            let found = hex(&fips::sha256(message));
            if found != example.digest {
                return Err(format!("{}: our own digest is {found}", example.line));
            }
            agreed += 1;
        }
    }
    Ok(agreed)
}

// A stream of bytes (xorshift64*), the same in every run.
struct Random(u64);

impl Random {
    fn byte(&mut self) -> u8 {
        self.0 ^= self.0 >> 12;
        self.0 ^= self.0 << 25;
        self.0 ^= self.0 >> 27;
        (self.0.wrapping_mul(0x2545_f491_4f6c_dd1d) >> 56) as u8
    }
}

// Messages of each length to 1200, at each of eight alignments in turn.
fn lengths() -> Result<usize, String> {
    let mut random = Random(0x9e37_79b9_7f4a_7c15);
    let mut cases = 0;
    for length in 0..=1200 {
        let start = length % 8;
        let buffer: Vec<u8> = (0..start + length).map(|_| random.byte()).collect();
        let message = &buffer[start..];
        let (found, expected) = (proved(message)?, fips::sha256(message));
        if found != expected {
            return Err(format!("{}: {} proved, {} our own", hex(message), hex(&found), hex(&expected)));
        }
        cases += 1;
    }
    Ok(cases)
}

// Output buffers of 0 to 40 bytes: below 32 nothing is written, above it the rest is kept.
fn outputs() -> Result<usize, String> {
    let message = b"abc";
    let digest = fips::sha256(message);
    let mut cases = 0;
    for length in 0..=40 {
        let before: Vec<u8> = (0..48).map(|i| 0xa0 + i).collect();
        let mut buffer = before.clone();
        let returned = proved_into(message, &mut buffer[..length]);
        let mut expected = before;
        if length >= 32 {
            expected[..32].copy_from_slice(&digest);
        }
        if returned != (if length >= 32 { 32 } else { 0 }) || buffer != expected {
            return Err(format!("a buffer of {length} bytes: returned {returned}, left {}", hex(&buffer)));
        }
        cases += 1;
    }
    Ok(cases)
}

// Large messages, with a last block or two, hashed on a thread whose stack is far smaller than they are.
fn on_small_stack() -> Result<usize, String> {
    const STACK: usize = 64 << 10;
    const MIB: usize = 1 << 20;
    let mut random = Random(0x6a09_e667_f3bc_c908);
    let buffer: Vec<u8> = (0..16 * MIB + 63).map(|_| random.byte()).collect();
    let lengths = [MIB, MIB + 55, MIB + 56, 16 * MIB, 16 * MIB + 55, 16 * MIB + 56, 16 * MIB + 63];
    for length in lengths {
        let message = &buffer[..length];
        let found = std::thread::scope(|scope| {
            let thread = std::thread::Builder::new().stack_size(STACK).spawn_scoped(scope, || proved(message));
            thread.expect("a thread").join().expect("its end")
        })?;
        let expected = fips::sha256(message);
        if found != expected {
            return Err(format!("{length} bytes: {} proved, {} our own", hex(&found), hex(&expected)));
        }
    }
    Ok(lengths.len())
}

// That the library has the exported function, calls nothing of others but what copies and fills
// memory, so no allocator, and has no variable of its own. Returns how many functions it exports.
fn keeps_no_memory(path: &str) -> Result<usize, String> {
    const MAY_CALL: [&str; 3] = ["memcpy", "memmove", "memset"];
    let text = std::fs::read_to_string(path).unwrap_or_else(|e| panic!("{path}: {e}"));
    let mut exported = 0;
    for line in text.lines() {
        match line.split(' ').collect::<Vec<&str>>()[..] {
            ["silkcliff_sha256", "T", ..] => exported += 1,
            [name, "T", ..] => return Err(format!("it exports {name} too")),
            [name, "B" | "b" | "C" | "D" | "d", ..] => return Err(format!("it has the variable {name}")),
            [name, "U", ..] if !MAY_CALL.contains(&name) => return Err(format!("it calls {name}")),
            _ => {}
        }
    }
    Ok(exported)
}

// That VECTORS-FILE has every NIST example of at most 1,005 bytes. Returns how many those are.
fn contained(nist: &[Example], vectors: &[Example]) -> Result<usize, String> {
    let lines: HashSet<&str> = vectors.iter().map(|e| &e.line[..]).collect();
    let small: Vec<&Example> = nist.iter().filter(|e| e.length() <= 1005).collect();
    match small.iter().find(|e| !lines.contains(&e.line[..])) {
        Some(e) => Err(format!("not there: {}", e.line)),
        None => Ok(small.len()),
    }
}

struct Tally {
    passed: usize,
    failed: usize,
}

impl Tally {
    // A group passes where it ran as many cases as it is known to have.
    fn group(&mut self, name: &str, expected: usize, outcome: Result<usize, String>) {
        match outcome {
            Ok(cases) if cases == expected => {
                println!("ok: {name}: {cases}");
                self.passed += 1;
            }
            Ok(cases) => {
                println!("FAILED: {name}: {cases} cases ran, and there are {expected}");
                self.failed += 1;
            }
            Err(why) => {
                println!("FAILED: {name}: {why}");
                self.failed += 1;
            }
        }
    }
}

fn main() {
    let arguments: Vec<String> = std::env::args().skip(1).collect();
    let (files, flags): (Vec<&String>, Vec<&String>) = arguments.iter().partition(|a| !a.starts_with("--"));
    if files.len() != 3 || flags.iter().any(|f| *f != "--independent-large") {
        eprintln!("usage: sha256-test NIST-FILE VECTORS-FILE SYMBOLS-FILE [--independent-large]");
        exit(2);
    }
    let independent_large = !flags.is_empty();
    let nist = examples(files[0]);
    let vectors = examples(files[1]);
    let mut tally = Tally { passed: 0, failed: 0 };
    // 18 by the proved function; by our own all but the three large ones
    let digests = if independent_large { 36 } else { 33 };
    tally.group("digests of NIST's examples", digests, compare(&nist, independent_large));
    tally.group("NIST's small examples in the program's expected output", 13, contained(&nist, &vectors));
    tally.group("digests of the program's expected output", 50, compare(&vectors, false));
    tally.group("random messages of 0 to 1200 bytes", 1201, lengths());
    tally.group("output buffers of 0 to 40 bytes", 41, outputs());
    tally.group("messages of 1 and 16 MiB on a stack of 64 KiB", 7, on_small_stack());
    tally.group("exported functions, with no memory of the library's own", 1, keeps_no_memory(files[2]));
    println!("{} passed, {} failed", tally.passed, tally.failed);
    exit(if tally.failed == 0 { 0 } else { 1 });
}
