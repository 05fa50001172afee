//! Measures AES-128 and the two calls over it against an ordinary Rust implementation and OpenSSL,
//! after all three have given the same octets. Prints Markdown, and fails where a block takes as
//! long as it does when the compiler no longer makes vectors of the S-box.

mod aes;
mod agree;
mod keywrap;
mod openssl;
mod plain;
mod rattle;

use openssl::OpenSsl;
use plain::Rust;
use rattle::Rattle;
use std::hint::black_box;
use std::process::{exit, Command};
use std::time::Instant;

core::arch::global_asm!(
    ".section .text.hot.shift,\"axR\",@progbits",
    concat!(".skip ", env!("SHIFT")),
    ".text"
);

/// A multiple of three: each is the first equally often.
const RUNS: usize = 45;
/// Of each program, with AES-NI and without.
const PROCESSES: usize = 3;
/// Blocks that one timed stretch encrypts or decrypts, in whichever call.
const BLOCKS: usize = 2_000;
/// Hides AES-NI from OpenSSL: bit 57 of what it knows of the processor.
const WITHOUT: (&str, &str) = ("OPENSSL_ia32cap", "~0x200000000000000");
/// Calls take up to 2.2 times as long as by the Rust one's table, and about ten times when the S-box is
/// called octet by octet.
const MOST: f64 = 4.0;

#[derive(Debug, PartialEq, Eq)]
pub struct Refused;

pub trait Calls: Sized {
    /// None where there is no such implementation on this machine.
    fn new() -> Option<Self>;
    fn expand(&mut self, key: &[u8; 16]);
    /// Expands a key for both directions.
    fn prepare(&mut self, key: &[u8; 16]) {
        self.expand(key);
    }
    fn encrypt(&mut self, block: &mut [u8; 16]);
    fn decrypt(&mut self, block: &mut [u8; 16]);
    fn wrap(&mut self, key: &[u8; 16], p: &[u8], out: &mut [u8]) -> Result<usize, Refused>;
    fn unwrap(&mut self, key: &[u8; 16], c: &[u8], out: &mut [u8]) -> Result<usize, Refused>;
}

#[derive(Clone, Copy)]
enum Case {
    Encrypt,
    Decrypt,
    Expand,
    Wrap(usize),
    Unwrap(usize),
}

const ROWS: [(&str, Case); 9] = [
    ("encrypt a block", Case::Encrypt),
    ("decrypt a block", Case::Decrypt),
    ("expand a key", Case::Expand),
    ("wrap 16 octets", Case::Wrap(16)),
    ("wrap 40 octets", Case::Wrap(40)),
    ("wrap 240 octets", Case::Wrap(240)),
    ("unwrap 16 octets", Case::Unwrap(16)),
    ("unwrap 40 octets", Case::Unwrap(40)),
    ("unwrap 240 octets", Case::Unwrap(240)),
];

/// ns for one of so many.
fn timed(count: usize, mut call: impl FnMut(usize)) -> f64 {
    let begin = Instant::now();
    for i in 0..count {
        call(i);
    }
    begin.elapsed().as_nanos() as f64 / count as f64
}

/// The calls that make about as many blocks as a stretch has.
fn calls(octets: usize) -> usize {
    BLOCKS / (6 * octets.div_ceil(8))
}

/// ns per call in one run, each with another key. A block is made of the one before, as in a key
/// wrap.
fn once<T: Calls>(case: Case, run: usize) -> f64 {
    let Some(mut t) = T::new() else {
        return f64::NAN;
    };
    let mut key = [run as u8; 16];
    let (mut block, mut out, plaintext) = ([0; 16], [0; 300], [run as u8; 240]);
    t.prepare(&key);
    match case {
        Case::Encrypt => timed(BLOCKS, |_| t.encrypt(black_box(&mut block))),
        Case::Decrypt => timed(BLOCKS, |_| t.decrypt(black_box(&mut block))),
        Case::Expand => timed(BLOCKS, |i| {
            key[0] = i as u8;
            t.expand(black_box(&key));
        }),
        Case::Wrap(n) => timed(calls(n), |_| {
            black_box(t.wrap(&key, black_box(&plaintext[..n]), &mut out)).unwrap();
        }),
        Case::Unwrap(n) => {
            let mut wrapped = [0; 300];
            let count = t.wrap(&key, &plaintext[..n], &mut wrapped).unwrap();
            timed(calls(n), |_| {
                black_box(t.unwrap(&key, black_box(&wrapped[..count]), &mut out)).unwrap();
            })
        }
    }
}

fn median(mut v: Vec<f64>) -> f64 {
    v.sort_by(f64::total_cmp);
    v[v.len() / 2]
}

/// ns per call of the proved one, the Rust one and OpenSSL.
type Figures = [f64; 3];

/// The medians of this process's runs; each of the three is the first in every third run.
fn medians(case: Case) -> Figures {
    let mut ns = [(); 3].map(|()| vec![]);
    for run in 0..RUNS {
        for i in [0, 1, 2].map(|i| (run + i) % 3) {
            ns[i].push([once::<Rattle>, once::<Rust>, once::<OpenSsl>][i](
                case, run,
            ));
        }
    }
    ns.map(median)
}

/// The medians of every row, from a process of their own.
fn another_process(program: &str, without: bool) -> Vec<Figures> {
    let mut command = Command::new(program);
    command.arg("--figures");
    if without {
        command.env(WITHOUT.0, WITHOUT.1);
    }
    let text = String::from_utf8(command.output().unwrap().stdout).unwrap();
    let numbers = |line: &str| {
        line.split(' ')
            .map(|x| x.parse().unwrap())
            .collect::<Vec<f64>>()
    };
    text.lines()
        .map(|line| numbers(line).try_into().unwrap())
        .collect()
}

/// The median over the processes of what each gives.
fn over(figures: &[Vec<Figures>], of: impl Fn(&[Figures]) -> f64) -> f64 {
    median(figures.iter().map(|process| of(process)).collect())
}

fn print_figures(with: &[Vec<Figures>], without: &[Vec<Figures>]) {
    print!("| | ns Rattle | ns Rust | ns OpenSSL | ns OpenSSL without AES-NI |");
    println!(" Rust / Rattle | OpenSSL / Rattle | without / Rattle |");
    println!("|---|---:|---:|---:|---:|---:|---:|---:|");
    for (i, (name, _)) in ROWS.iter().enumerate() {
        let [a, b, c] = [0, 1, 2].map(|t| over(with, |p| p[i][t]));
        let d = over(without, |p| p[i][2]);
        let [rust, openssl] = [1, 2].map(|t| over(with, |p| p[i][t] / p[i][0]));
        let other = over(without, |p| p[i][2] / p[i][0]);
        print!("| {name} | {a:.0} | {b:.0} | {c:.0} | {d:.0} |");
        println!(" {rust:.2} | {openssl:.2} | {other:.2} |");
    }
}

/// Whether the S-box is still a loop over vectors in both archives, by the times of blocks as
/// multiples of the Rust one's.
fn judge(figures: &[Vec<Figures>]) {
    let rows = ROWS.iter().enumerate();
    let blocks = rows.filter(|(_, (_, case))| !matches!(case, Case::Expand));
    let times = blocks.map(|(i, (name, _))| (over(figures, |p| p[i][0] / p[i][1]), name));
    let (most, name) = times.max_by(|a, b| a.0.total_cmp(&b.0)).unwrap();
    println!("\nThe most beside Rust, but for expanding: {name}, {most:.1} times as long.");
    if most > MOST {
        println!("FAIL: at most {MOST:.1}. The compiler makes no vectors of the S-box.");
        exit(1);
    }
}

/// The arguments are the programs that measure: this one, built for each place of the code.
fn main() {
    let words: Vec<String> = std::env::args().skip(1).collect();
    if words == ["--figures"] {
        for (_, case) in ROWS {
            let [a, b, c] = medians(case);
            println!("{a} {b} {c}");
        }
        return;
    }
    agree::run();
    let programs = || (0..PROCESSES).flat_map(|_| &words);
    let with: Vec<_> = programs().map(|p| another_process(p, false)).collect();
    let without: Vec<_> = programs().map(|p| another_process(p, true)).collect();
    print_figures(&with, &without);
    judge(&with);
}
