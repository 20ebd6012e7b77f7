//! Runs of a program that is compared, and where its output differs.

use std::io::{Read, Write};
use std::path::{Path, PathBuf};
use std::process::{exit, Command, Stdio};
use std::sync::mpsc;
use std::time::{Duration, Instant};

/// Time for one run.
const TIMEOUT: Duration = Duration::from_secs(20);
/// Output beyond this is not read.
const OUTPUT_LIMIT: u64 = 1 << 26;
pub const NO_END: &str = "no end of its output in time and size";
/// Differences shown in full.
const SHOWN: usize = 5;
/// After so many runs without an end the comparison stops.
const ENDLESS: usize = 3;
/// Each answer is given at least so often.
const LEAST: usize = 20;

/// Runs PROGRAM, feeding `feed` from a thread of its own.
pub fn run_fed(
    program: &Path,
    timeout: Duration,
    feed: impl FnOnce(&mut dyn Write) -> std::io::Result<()> + Send + 'static,
) -> Result<Vec<u8>, String> {
    let mut child = Command::new(program)
        .stdin(Stdio::piped())
        .stdout(Stdio::piped())
        .stderr(Stdio::null())
        .spawn()
        .map_err(|e| format!("cannot start: {e}"))?;
    let mut stdin = child.stdin.take().unwrap();
    let stdout = child.stdout.take().unwrap();
    // PROGRAM may close its input early; what it prints decides.
    std::thread::spawn(move || {
        let _ = feed(&mut stdin);
    });
    let (send, receive) = mpsc::channel();
    std::thread::spawn(move || {
        let mut output = Vec::new();
        let result = stdout.take(OUTPUT_LIMIT).read_to_end(&mut output);
        let _ = send.send(result.map(|_| output));
    });
    let output = receive.recv_timeout(timeout);
    let endless = !matches!(&output, Ok(Ok(bytes)) if (bytes.len() as u64) < OUTPUT_LIMIT);
    if endless {
        let _ = child.kill();
    }
    let status = child.wait().map_err(|e| e.to_string())?;
    match output {
        _ if endless => Err(NO_END.to_string()),
        Err(_) | Ok(Err(_)) => unreachable!(),
        Ok(Ok(output)) if status.success() => Ok(output),
        Ok(Ok(_)) => Err(format!("ended with {status}")),
    }
}

/// Runs PROGRAM on an input.
pub fn run(program: &Path, input: Vec<u8>) -> Result<Vec<u8>, String> {
    run_fed(program, TIMEOUT, move |stdin| stdin.write_all(&input))
}

/// Where two outputs first differ.
pub fn difference(expected: &[u8], found: &[u8]) -> String {
    let text = |line: Option<&&[u8]>| match line {
        None => "no line".to_string(),
        Some(l) => String::from_utf8_lossy(&l[..l.len().min(120)]).trim_end().to_string(),
    };
    let expected: Vec<&[u8]> = expected.split_inclusive(|&b| b == b'\n').collect();
    let found: Vec<&[u8]> = found.split_inclusive(|&b| b == b'\n').collect();
    let at = (0..).find(|&i| expected.get(i) != found.get(i)).unwrap();
    format!("line {}: expected {}, found {}", at + 1, text(expected.get(at)), text(found.get(at)))
}

/// The program at a path.
pub fn find(program: &str) -> PathBuf {
    match Path::new(program).canonicalize() {
        Ok(path) if path.is_file() => path,
        _ => {
            println!("FAILED: no program {program}");
            exit(1);
        }
    }
}

/// Runs of PROGRAM on scripts of the edges program.
pub struct Comparison {
    program: PathBuf,
    start: Instant,
    scripts: usize,
    differences: usize,
    endless: usize,
}

impl Comparison {
    pub fn new(program: PathBuf) -> Comparison {
        Comparison { program, start: Instant::now(), scripts: 0, differences: 0, endless: 0 }
    }

    pub fn differs(&mut self, name: &str, what: &str) {
        self.differences += 1;
        if self.differences <= SHOWN {
            println!("DIFFERENT {name}: {what}");
        }
        self.endless += (what == NO_END) as usize;
        if self.endless == ENDLESS {
            println!("FAILED: stopped after {ENDLESS} runs without an end");
            exit(1);
        }
    }

    /// Runs PROGRAM on a script; gives its output.
    pub fn compare(&mut self, name: &str, text: String, expected: &str) -> Option<Vec<u8>> {
        match run(&self.program, text.into_bytes()) {
            Err(what) => {
                self.differs(name, &what);
                None
            }
            Ok(found) => {
                self.scripts += 1;
                if found != expected.as_bytes() {
                    self.differs(name, &difference(expected.as_bytes(), &found));
                }
                Some(found)
            }
        }
    }

    /// Prints how many scripts were compared, of how many.
    pub fn print(&self, scripts: usize) {
        println!("scripts compared: {} of {scripts}, in {:.1} s", self.scripts, self.start.elapsed().as_secs_f64());
    }

    /// Ends with the verdict.
    pub fn end(&self, scripts: usize, rare: bool) {
        if self.differences > 0 || rare || self.scripts != scripts {
            println!("FAILED: {} differences{}", self.differences, if rare { ", a rare answer" } else { "" });
            exit(1);
        }
        println!("PASSED: no difference");
    }
}

/// Prints how often each answer was given; true if one is too rare.
pub fn rare<'a>(answers: impl IntoIterator<Item = (String, Option<&'a usize>)>) -> bool {
    let mut rare = false;
    for (name, count) in answers {
        let count = count.copied().unwrap_or(0);
        println!("{name}: {count}");
        rare |= count < LEAST;
    }
    rare
}
