//! "Command and report": offers from input lines, one answer line each, then the report.

use crate::ledger::{Answer, Form, Ledger};
use std::io::{BufRead, BufReader, BufWriter, Read, Result, Write};

/// "The command reads at most 4,294,967,296 bytes; its input counts as ended there."
pub const INPUT_LIMIT: u64 = 4_294_967_296;

/// "over 2,000 characters [..] The newline is not counted."
pub const LINE_LIMIT: usize = 2_000;

const BLOCK: usize = 1 << 18;

/// Runs the command with the paper's limit.
pub fn run(input: impl Read, output: impl Write) -> Result<()> {
    run_limited(input, output, INPUT_LIMIT)
}

/// Runs the command on the first `limit` bytes of the input.
pub fn run_limited(input: impl Read, output: impl Write, limit: u64) -> Result<()> {
    let mut input = BufReader::with_capacity(BLOCK, input.take(limit));
    let mut output = BufWriter::with_capacity(BLOCK, output);
    let mut ledger = Ledger::new();
    let mut line = Vec::with_capacity(LINE_LIMIT + 1);
    let mut offered = Vec::with_capacity(LINE_LIMIT / 2);
    loop {
        // At most one byte past the longest line is kept: its newline, or proof that it is too long.
        line.clear();
        if input.by_ref().take(LINE_LIMIT as u64 + 1).read_until(b'\n', &mut line)? == 0 {
            break;
        }
        // "A last line may lack its newline."
        if line.last() == Some(&b'\n') {
            line.pop();
        } else if line.len() > LINE_LIMIT {
            input.skip_until(b'\n')?;
        }
        // "A line that does not read so, or is over 2,000 characters, prints `(unread)`."
        if line.len() > LINE_LIMIT || !read_offer(&line, &mut offered) {
            output.write_all(b"(unread)\n")?;
            continue;
        }
        match ledger.offer(&offered) {
            Answer::Taken { standing, newly_held, newly_void } => {
                writeln!(output, "(taken {} {newly_held} {newly_void})", standing.word())?
            }
            Answer::Known { standing } => writeln!(output, "(known {})", standing.word())?,
            Answer::Refused { number } => writeln!(output, "(refused {number})")?,
        }
    }
    // "Then comes the report"; of its two forms the command names the full one.
    output.write_all(&ledger.report(Form::Full))?;
    output.flush()
}

/// "Each input line reads `(offer H)`, H lowercase hexadecimal digits, even in number, perhaps
/// none." Puts the bytes that H spells into `bytes`; false for a line that does not read so.
pub fn read_offer(line: &[u8], bytes: &mut Vec<u8>) -> bool {
    bytes.clear();
    let Some(rest) = line.strip_prefix(b"(offer ") else { return false };
    let Some(digits) = rest.strip_suffix(b")") else { return false };
    if digits.len() % 2 != 0 {
        return false;
    }
    for pair in digits.chunks_exact(2) {
        let (high, low) = (DIGIT[pair[0] as usize], DIGIT[pair[1] as usize]);
        if high > 15 || low > 15 {
            return false;
        }
        bytes.push(high << 4 | low);
    }
    true
}

/// The value of each lowercase hexadecimal digit, 16 for every other byte.
const DIGIT: [u8; 256] = {
    let mut table = [16; 256];
    let mut value = 0;
    while value < 16 {
        table[b"0123456789abcdef"[value] as usize] = value as u8;
        value += 1;
    }
    table
};

#[cfg(test)]
mod tests {
    use super::*;

    fn output(input: &[u8], limit: u64) -> String {
        let mut out = Vec::new();
        run_limited(input, &mut out, limit).unwrap();
        String::from_utf8(out).unwrap()
    }

    const EMPTY: &str = "(ledger 1\n(held\n)\n(heads\n)\n(waiting\n)\n(void\n)\n(marks\n)\n(set\n)\n(list\n)\n)\n";

    #[test]
    fn the_papers_example() {
        assert_eq!(EMPTY.len(), 72);
        assert_eq!(output(b"(offer )\n(hello)\n", INPUT_LIMIT), format!("(refused 2)\n(unread)\n{EMPTY}"));
        assert_eq!(output(b"(offer )\n(hello)", INPUT_LIMIT), format!("(refused 2)\n(unread)\n{EMPTY}"));
    }

    #[test]
    fn no_line_after_the_last_newline() {
        assert_eq!(output(b"", INPUT_LIMIT), EMPTY);
        assert_eq!(output(b"\n", INPUT_LIMIT), format!("(unread)\n{EMPTY}"));
        assert_eq!(output(b"\n\n", INPUT_LIMIT), format!("(unread)\n(unread)\n{EMPTY}"));
    }

    #[test]
    fn the_input_ends_at_the_limit() {
        let input = b"(offer )\n(offer )\n";
        assert_eq!(output(input, 0), EMPTY);
        assert_eq!(output(input, 7), format!("(unread)\n{EMPTY}"));
        assert_eq!(output(input, 8), format!("(refused 2)\n{EMPTY}"));
        assert_eq!(output(input, 9), format!("(refused 2)\n{EMPTY}"));
        assert_eq!(output(input, 10), format!("(refused 2)\n(unread)\n{EMPTY}"));
        assert_eq!(output(input, 17), format!("(refused 2)\n(refused 2)\n{EMPTY}"));
    }

    #[test]
    fn line_lengths() {
        for end in ["", "\n"] {
            for (digits, answer) in
                [(1992, "(refused 2)"), (1993, "(unread)"), (1994, "(unread)"), (600_000, "(unread)")]
            {
                let line = format!("(offer {}){end}", "0".repeat(digits));
                assert_eq!(output(line.as_bytes(), INPUT_LIMIT), format!("{answer}\n{EMPTY}"));
                let twice = format!("{}\n(offer )\n", line.trim_end());
                assert_eq!(output(twice.as_bytes(), INPUT_LIMIT), format!("{answer}\n(refused 2)\n{EMPTY}"));
            }
        }
    }
}
