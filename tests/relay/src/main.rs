//! A load test of the relay from outside: its answers over pipes, octet for octet, against a model of
//! the table of documents 01 and 02 that shares no code with it.

mod answer;
mod child;
mod cover;
mod endings;
mod expected;
mod failure;
mod frames;
mod messages;
mod page;
mod pools;
mod reading;
mod refusals;
mod requests;
mod rng;
mod source;
mod streams;
mod table;

use std::path::PathBuf;
use std::process::ExitCode;

use failure::Failure;
use source::Source;

const USE: &str = "relay-test [--relay PATH] [--seed N] [--count N] [--single N] [--kept DIRECTORY] [--replay FILE]";

struct Options {
    relay: PathBuf,
    seed: u64,
    count: usize,
    single: usize,
    kept: PathBuf,
    replay: Option<PathBuf>,
}

fn options() -> Option<Options> {
    let relay = std::env::var_os("RELAY").map_or(PathBuf::from("target/bin/relay"), PathBuf::from);
    let kept = PathBuf::from("build/relay");
    let mut options = Options { relay, seed: 9185, count: 1_000_000, single: 100_000, kept, replay: None };
    let mut arguments = std::env::args().skip(1);
    while let Some(name) = arguments.next() {
        let value = arguments.next()?;
        match name.as_str() {
            "--relay" => options.relay = value.into(),
            "--seed" => options.seed = value.parse().ok()?,
            "--count" => options.count = value.parse().ok()?,
            "--single" => options.single = value.parse().ok()?,
            "--kept" => options.kept = value.into(),
            "--replay" => options.replay = Some(value.into()),
            _ => return None,
        }
    }
    Some(options)
}

/// 1234567 as 1,234,567.
fn grouped(number: usize) -> String {
    let digits = number.to_string();
    let mut out = String::new();
    for (at, digit) in digits.chars().enumerate() {
        if at > 0 && (digits.len() - at) % 3 == 0 {
            out.push(',');
        }
        out.push(digit);
    }
    out
}

/// Runs one part; a failure is told, kept, and ends the test.
fn part<T>(options: &Options, name: &str, result: Result<T, Failure>) -> Result<T, ExitCode> {
    let named = format!("{name}, seed {}", options.seed);
    result.map_err(|failure| {
        failure.tell(&options.kept, &named);
        ExitCode::FAILURE
    })
}

fn endings(options: &Options) -> Result<(), ExitCode> {
    let cuts = part(options, "input cut off", endings::cut_off(&options.relay))?;
    println!("input cut off at {cuts} positions: the answers to the whole frames, status 0");
    for round in 0..32 {
        part(options, "killed", endings::killed(&options.relay, options.seed, round))?;
    }
    println!("killed 32 times: the next Start is accepted and the table empty");
    part(options, "output not read", endings::unread(&options.relay))?;
    println!("output not read: it stops");
    let batch = Source::new(options.seed + 2).batch(2000);
    part(options, "in pieces", streams::in_pieces(&options.relay, options.seed, batch))?;
    println!("2,000 requests in pieces of 1 to 7 octets: the same");
    Ok(())
}

fn test(options: &Options) -> Result<String, ExitCode> {
    let (read, refused) = page::check();
    println!("the model's pages with one bit changed: {read} read, {refused} refused, as they would be written");
    let (many, cover) = part(options, "pipelined", streams::pipelined(&options.relay, options.seed, options.count))?;
    let wrong = expected::judge(&cover);
    let reached = if wrong.is_empty() { Ok(()) } else { Err(Failure::new(wrong.join("\n"))) };
    part(options, "reach of the requests", reached)?;
    endings(options)?;
    let batch = Source::new(options.seed + 1).batch(options.single);
    let single = part(options, "one by one", streams::one_by_one(&options.relay, &batch))?;
    println!(
        "pipelined {:.2} s, of which the relay's processor time {:.2} s; one by one {:.2} s, {:.2} s",
        many.seconds, many.processor, single.seconds, single.processor
    );
    Ok(format!(
        "{} answers the same; {} requests/s pipelined, {} one by one",
        grouped(many.requests + single.requests),
        grouped(many.rate()),
        grouped(single.rate())
    ))
}

fn run(options: &Options) -> Result<String, ExitCode> {
    let Some(file) = &options.replay else {
        return test(options);
    };
    let read = std::fs::read(file).map_err(|error| Failure::new(format!("{}: {error}", file.display())));
    let stream = part(options, "replay file", read)?;
    let count = part(options, "replay", endings::replay(&options.relay, &stream))?;
    Ok(format!("{} answers of the replay the same", grouped(count)))
}

fn main() -> ExitCode {
    let Some(options) = options() else {
        eprintln!("{USE}");
        return ExitCode::from(2);
    };
    match run(&options) {
        Ok(summary) => {
            println!("{summary}");
            ExitCode::SUCCESS
        }
        Err(code) => code,
    }
}
