//! Compares the library, through its C interface, with rules written from the papers alone.
//!
//!     differential [--cases N] [--seed S]     N random cases behind the sweeps; the same seed, the same cases
//!     differential --seconds T [--seed S]     random cases for so long, block after block
//!     differential replay 'LINE'              one case, as a disagreement prints it; without LINE, from standard input

mod aes;
mod case;
mod compare;
mod index;
mod keywrap;
mod known;
mod known_index;
mod lent;
mod library;
mod make;
mod make_index;
mod make_keywrap;
mod make_page;
mod openssl;
mod page;
mod paper;
mod random;
mod registers;
mod stop;
mod stream;
mod sweep;
mod sweep_index;
mod sweep_keywrap;
mod sweep_page;
mod tally;
mod third;
mod vast;
mod vast_keywrap;

use compare::{Bench, Disagreement};
use lent::Edge;
use random::Random;
use tally::Tally;

const BLOCK: u64 = 1_000_000;

struct Options {
    cases: u64,
    seconds: u64,
    seed: u64,
}

fn main() {
    let arguments: Vec<String> = std::env::args().skip(1).collect();
    let words: Vec<&str> = arguments.iter().map(|word| &word[..]).collect();
    stop::install();
    match words[..] {
        ["replay"] => std::io::stdin().lines().for_each(|line| replay(&line.unwrap())),
        ["replay", ref line @ ..] => replay(&line.join(" ")),
        _ => search(options(&words)),
    }
}

fn options(words: &[&str]) -> Options {
    let mut options = Options { cases: 9 * BLOCK, seconds: 0, seed: 9185 };
    for pair in words.chunks(2) {
        let value = pair.get(1).and_then(|value| value.parse().ok());
        match (pair[0], value) {
            ("--cases", Some(n)) => options.cases = n,
            ("--seconds", Some(n)) => options.seconds = n,
            ("--seed", Some(n)) => options.seed = n,
            _ => {
                eprintln!("usage: differential [--cases N | --seconds T] [--seed S] | replay ['LINE']");
                std::process::exit(2);
            }
        }
    }
    options
}

fn replay(line: &str) {
    let Some(case) = case::parse(line) else {
        eprintln!("not a case: {line}");
        std::process::exit(2);
    };
    let mut bench = Bench::new();
    stop::within_seconds(10);
    let at = stop::during(&case);
    for edge in [Edge::Low, Edge::High] {
        for shift in [0, 1, 101, 255] {
            bench.run(&case, edge, shift).unwrap_or_else(|d| disagree(&case.to_string(), d));
        }
    }
    drop(at);
    println!("{} answers agree", bench.answers);
}

fn search(options: Options) {
    let begin = std::time::Instant::now();
    let mut bench = Bench::new();
    stop::within_seconds(60);
    known::all(&mut bench).unwrap_or_else(|(line, d)| disagree(&line, d));
    sweep::all(&mut bench).unwrap_or_else(|(line, d)| disagree(&line, d));
    println!("sweeps: {} answers agree, {:.1} s", bench.answers, begin.elapsed().as_secs_f32());

    let mut tally = Tally::new();
    let mut cases = 0;
    let mut block = 0;
    while if options.seconds > 0 { begin.elapsed().as_secs() < options.seconds } else { cases < options.cases } {
        let n = if options.seconds > 0 { BLOCK } else { BLOCK.min(options.cases - cases) };
        run_block(&mut bench, &mut tally, options.seed.wrapping_add(block), n);
        cases += n;
        block += 1;
    }
    vast::all(&mut bench).unwrap_or_else(|d| disagree("none: a stretch of more than 2^32 octets", d));
    tally.print();
    let missing = tally.missing(cases);
    if !missing.is_empty() {
        eprintln!("the cases did not reach enough:\n  {}", missing.join("\n  "));
        std::process::exit(1);
    }
    let seconds = begin.elapsed().as_secs_f32();
    let third = bench.third.summary();
    println!("{cases} random cases of seed {}, {} answers agree, {seconds:.1} s; {third}", options.seed, bench.answers);
}

fn run_block(bench: &mut Bench, tally: &mut Tally, seed: u64, n: u64) {
    let mut random = Random::new(seed);
    stop::within_seconds(60);
    for _ in 0..n {
        let case = make::case(&mut random);
        let edge = if random.once_in(3) { Edge::Low } else { Edge::High };
        let shift = random.octet();
        let at = stop::during(&case);
        let why = bench.run(&case, edge, shift).unwrap_or_else(|d| disagree(&case.to_string(), d));
        drop(at);
        tally.note(&case, why);
    }
    stream::all(bench, seed).unwrap_or_else(|(line, d)| disagree(&line, d));
}

fn disagree(line: &str, disagreement: Disagreement) -> ! {
    let Disagreement { asked, who, answer, paper } = disagreement;
    eprintln!(
        "DISAGREEMENT: {asked}\n  {who}: {answer}\n  papers:  {paper}\n  the case, for differential replay:\n{line}"
    );
    std::process::exit(1)
}
