// The throughput of the proved SHA-256 as a ratio to that of others, on one core.
//
// Each contestant is a process of its own, so that OpenSSL can run with and without the processor's
// SHA instructions: this program starts itself as `sha256-bench worker NAME`. A worker reads lines
// SIZE TIMES, hashes SIZE bytes TIMES times, and answers the nanoseconds. The contestants take
// turns, and the best of the turns counts.
use std::os::raw::{c_char, c_int, c_void};
use std::io::{BufRead, BufReader, Write};
use std::process::{exit, Child, ChildStdin, ChildStdout, Command, Stdio};
use std::time::Instant;

const SIZES: [usize; 5] = [64, 533, 8 << 10, 1 << 20, 16 << 20];
const NAMES: [&str; SIZES.len()] = ["64 B", "533 B", "8 KiB", "1 MiB", "16 MiB"];
// Many short turns, some milliseconds each, so that a few fall where nothing else runs on the core. A turn at a size above
// TURN_BYTES is one message, taken every LONG_TURN turns.
const TURNS: usize = 150;
const TURN_BYTES: usize = 1 << 20;
const LONG_TURN: usize = 5;

extern "C" {
    fn silkcliff_sha256(s: *const u8, s_len: usize, out: *mut u8, out_len: usize) -> usize;
    fn plain_sha256(message: *const u8, length: usize, out: *mut u8);
    fn unrolled_sha256(message: *const u8, length: usize, out: *mut u8);
    fn dlopen(name: *const c_char, flags: c_int) -> *mut c_void;
    fn dlsym(library: *mut c_void, name: *const c_char) -> *mut c_void;
}

// OpenSSL's SHA-256 by its three low-level functions, which look nothing up at each call.
struct OpenSsl {
    init: unsafe extern "C" fn(*mut c_void) -> c_int,
    update: unsafe extern "C" fn(*mut c_void, *const u8, usize) -> c_int,
    last: unsafe extern "C" fn(*mut u8, *mut c_void) -> c_int,
}

fn open_ssl() -> Option<OpenSsl> {
    const RTLD_NOW: c_int = 2;
    let names = [&b"libcrypto.so.3\0"[..], b"libcrypto.so.1.1\0", b"libcrypto.so\0"];
    unsafe {
        let library = names.iter().map(|n| dlopen(n.as_ptr().cast(), RTLD_NOW)).find(|p| !p.is_null())?;
        let symbol = |name: &[u8]| Some(dlsym(library, name.as_ptr().cast())).filter(|p| !p.is_null());
        Some(OpenSsl {
            init: std::mem::transmute(symbol(b"SHA256_Init\0")?),
            update: std::mem::transmute(symbol(b"SHA256_Update\0")?),
            last: std::mem::transmute(symbol(b"SHA256_Final\0")?),
        })
    }
}

type Hash = Box<dyn Fn(&[u8], &mut [u8; 32])>;

// A contestant's name, what the table calls it, and the value of OPENSSL_ia32cap that it runs with.
struct Contestant(&'static str, &'static str, Option<&'static str>);

const CONTESTANTS: [Contestant; 5] = [
    Contestant("proved", "proved", None),
    Contestant("plain", "plain C, gcc -O3", None),
    Contestant("unrolled", "hand-unrolled C, gcc -O3", None),
    // bit 29 of the second 64 bits: the SHA instructions
    Contestant("openssl", "OpenSSL without SHA instructions", Some("~0x0:~0x20000000")),
    Contestant("openssl", "OpenSSL with SHA instructions", None),
];

fn hash_of(name: &str) -> Option<Hash> {
    match name {
        "proved" => Some(Box::new(|s, out| {
            let n = unsafe { silkcliff_sha256(s.as_ptr(), s.len(), out.as_mut_ptr(), out.len()) };
            assert!(n == 32);
        })),
        "plain" => Some(Box::new(|s, out| unsafe { plain_sha256(s.as_ptr(), s.len(), out.as_mut_ptr()) })),
        "unrolled" => Some(Box::new(|s, out| unsafe { unrolled_sha256(s.as_ptr(), s.len(), out.as_mut_ptr()) })),
        "openssl" => open_ssl().map(|ssl| -> Hash {
            Box::new(move |s, out| {
                // SHA256_CTX has 112 bytes
                let mut state = [0u64; 32];
                let state: *mut c_void = state.as_mut_ptr().cast();
                let done = unsafe {
                    (ssl.init)(state) + (ssl.update)(state, s.as_ptr(), s.len()) + (ssl.last)(out.as_mut_ptr(), state)
                };
                assert!(done == 3);
            })
        }),
        _ => None,
    }
}

fn message() -> Vec<u8> {
    (0..SIZES[SIZES.len() - 1]).map(|i| (i * 131 + i / 251) as u8).collect()
}

fn work(name: &str) {
    let hash = match hash_of(name) {
        Some(hash) => hash,
        None => return,
    };
    let message = message();
    let mut out = [0; 32];
    println!("ready");
    for line in std::io::stdin().lock().lines() {
        let line = line.expect("a line");
        let words: Vec<usize> = line.split(' ').map(|w| w.parse().expect("a number")).collect();
        let began = Instant::now();
        for _ in 0..words[1] {
            hash(std::hint::black_box(&message[..words[0]]), &mut out);
        }
        let took = began.elapsed().as_nanos();
        let hex: String = out.iter().map(|b| format!("{b:02x}")).collect();
        println!("{took} {hex}");
    }
}

struct Worker {
    title: &'static str,
    child: Child,
    input: ChildStdin,
    output: BufReader<ChildStdout>,
    // the fewest nanoseconds for a byte, by size
    best: [f64; SIZES.len()],
}

impl Worker {
    // None where the contestant is not to be had on this machine.
    fn start(contestant: &Contestant) -> Option<Worker> {
        let Contestant(name, title, mask) = contestant;
        let mut command = Command::new(std::env::current_exe().expect("this program"));
        command.args(["worker", name]).stdin(Stdio::piped()).stdout(Stdio::piped()).env_remove("OPENSSL_ia32cap");
        if let Some(mask) = mask {
            command.env("OPENSSL_ia32cap", mask);
        }
        let mut child = command.spawn().expect("a worker");
        let input = child.stdin.take().expect("its input");
        let output = BufReader::new(child.stdout.take().expect("its output"));
        let mut worker = Worker { title, child, input, output, best: [f64::INFINITY; SIZES.len()] };
        let mut line = String::new();
        worker.output.read_line(&mut line).expect("its first line");
        if line == "ready\n" {
            return Some(worker);
        }
        worker.child.wait().expect("its end");
        None
    }

    // One turn at a size. Returns the digest.
    fn turn(&mut self, k: usize) -> String {
        let times = (TURN_BYTES / SIZES[k]).max(1);
        writeln!(self.input, "{} {}", SIZES[k], times).expect("a worker that reads");
        let mut line = String::new();
        self.output.read_line(&mut line).expect("a worker that answers");
        let words: Vec<&str> = line.split_whitespace().collect();
        let took: f64 = words[0].parse().expect("nanoseconds");
        self.best[k] = self.best[k].min(took / (times * SIZES[k]) as f64);
        words[1].to_string()
    }
}

fn main() {
    let arguments: Vec<String> = std::env::args().skip(1).collect();
    match &arguments[..] {
        [] => {}
        [mode, name] if mode == "worker" => return work(name),
        _ => {
            eprintln!("usage: sha256-bench");
            exit(2);
        }
    }
    let mut workers = Vec::new();
    for contestant in &CONTESTANTS {
        match Worker::start(contestant) {
            Some(worker) => workers.push(worker),
            None => println!("{}: NOT MEASURED, there is no libcrypto on this machine", contestant.1),
        }
    }
    for turn in 0..TURNS {
        for k in (0..SIZES.len()).filter(|k| SIZES[*k] <= TURN_BYTES || turn % LONG_TURN == 0) {
            let digests: Vec<String> = workers.iter_mut().map(|w| w.turn(k)).collect();
            if turn == 0 {
                for (w, d) in workers.iter().zip(&digests) {
                    assert!(*d == digests[0], "{} and the proved digest differ at {} bytes", w.title, SIZES[k]);
                }
            }
        }
    }
    let row = |title: &str, cells: Vec<String>| {
        print!("{title:<38}");
        for cell in cells {
            print!("{cell:>9}");
        }
        println!();
    };
    row("", NAMES.iter().map(|n| n.to_string()).collect());
    let proved = workers[0].best;
    for worker in &workers {
        row(&format!("{}, MB/s", worker.title), worker.best.iter().map(|b| format!("{:.0}", 1000.0 / b)).collect());
    }
    println!("The proved digest's throughput as a ratio to that of");
    for worker in &workers[1..] {
        let ratios = worker.best.iter().zip(&proved).map(|(other, ours)| format!("{:.2}", other / ours));
        row(&format!("  {}", worker.title), ratios.collect());
    }
    let (last, before) = (SIZES.len() - 1, SIZES.len() - 2);
    println!("The time for a byte of a message of {} as a ratio to that of one of {}", NAMES[last], NAMES[before]);
    for worker in &workers {
        row(&format!("  {}", worker.title), vec![format!("{:.3}", worker.best[last] / worker.best[before])]);
    }
    for worker in workers {
        let Worker { mut child, input, .. } = worker;
        drop(input);
        child.wait().expect("its end");
    }
}
