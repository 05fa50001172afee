//! Measures the distributor's calls against two ordinary Rust tables, after all three have given the
//! same answers on random lists of calls. Prints Markdown.

mod agree;
mod bits;
mod calls;
mod scan;
mod sorted;
mod stack;
mod table;

use agree::{endpoint, identifier, media_keys, message, tunneled_dtls, Random};
use calls::{Calls, Rattle, Rust, RECORD};
use scan::Scan;
use sorted::Sorted;
use std::hint::black_box;
use std::process::Command;
use std::time::Instant;
use table::PLACES;

/// States that one timed stretch goes through, restored before it.
const STATES: usize = 16;
const STRETCHES: usize = 60;
const CALLS: usize = 2_000;
/// A multiple of three: each table is the first equally often.
const RUNS: usize = 99;
/// Whom openings at random choose among: so many that their endpoints fall between most of the live
/// ones, and few enough to stay in the cache.
const NEWCOMERS: usize = 256;
/// Of each program: where a process has its memory moves some figures by a tenth.
const PROCESSES: usize = 3;

// Where the linker puts code in the lines of the cache moves figures of short calls by a tenth. So
// the program is built four times, with all code behind these octets.
core::arch::global_asm!(
    ".section .text.hot.shift,\"axR\",@progbits",
    concat!(".skip ", env!("SHIFT")),
    ".text"
);

#[derive(Clone, Copy)]
enum Case {
    Start,
    /// Of one of so many newcomers.
    Open(usize),
    Packet(usize),
    Keys(usize),
    Delivery,
    Disconnect,
    Version,
    Close,
    End,
    Look,
    Page,
}

const NAMES: [&str; 8] = [
    "start",
    "open",
    "booth packet",
    "tunnel octets",
    "close",
    "end",
    "look",
    "write page",
];

struct Row {
    call: &'static str,
    answer: &'static str,
    case: Case,
    live: usize,
}

/// A tunnel that is up with both profiles and so many keyed associations.
fn prepared<T: Calls>(live: usize) -> T {
    let mut t = T::first();
    let (mut out, mut more) = ([0; 64], [0; 3]);
    assert_eq!(t.start(&[0, 9, 0, 10], &mut out), 10);
    for i in 0..live {
        assert_eq!(t.open(&identifier(i), endpoint(i)), i as u64);
        let m = keys(i, 32);
        assert_eq!(t.tunnel_octets(&m, &mut more), m.len() as u64);
    }
    t
}

fn keys(i: usize, length: usize) -> Vec<u8> {
    let key = [i as u8 + 1; 32];
    let (profile, salt) = if length == 16 { (9, 12) } else { (10, 32) };
    let mki = if length == 16 { 0 } else { 16 };
    media_keys(
        &identifier(i),
        profile,
        [
            &key[..mki],
            &key[..length],
            &key[..length],
            &key[..salt],
            &key[..salt],
        ],
    )
}

/// The lines of a page. Octets lent to calls lie from another of them on in each run, and so does
/// the state, as its length is an odd number of lines: no figure hangs on one place.
const LINES: usize = 64;

/// Octets lent to calls, one piece behind another.
struct Laid {
    octets: Vec<u8>,
    ends: Vec<usize>,
}

impl Laid {
    fn new(pieces: impl Iterator<Item = Vec<u8>>, run: usize) -> Self {
        let mut octets = vec![0; run % LINES * 64];
        let mut ends = vec![octets.len()];
        for piece in pieces {
            octets.extend(piece);
            ends.push(octets.len());
        }
        Laid { octets, ends }
    }
    fn get(&self, i: usize) -> &[u8] {
        &self.octets[self.ends[i]..self.ends[i + 1]]
    }
}

/// ns per call: calls that change nothing, one state.
fn still<T: Calls>(t: &mut T, mut call: impl FnMut(&mut T, usize) -> u64) -> f64 {
    let begin = Instant::now();
    for i in 0..CALLS {
        black_box(call(black_box(t), i));
    }
    begin.elapsed().as_nanos() as f64 / CALLS as f64
}

/// ns per call: calls that change the state, each on a state of its own.
fn moving<T: Calls>(from: &T, mut call: impl FnMut(&mut T, usize) -> u64) -> f64 {
    let mut states: Vec<T> = vec![from.clone(); STATES];
    let mut total = 0;
    for stretch in 0..STRETCHES {
        for t in &mut states {
            t.clone_from(from);
        }
        let states = black_box(&mut states);
        let begin = Instant::now();
        for (i, t) in states.iter_mut().enumerate() {
            black_box(call(t, stretch * STATES + i));
        }
        total += begin.elapsed().as_nanos();
    }
    total as f64 / (STATES * STRETCHES) as f64
}

fn once<T: Calls>(case: Case, live: usize, run: usize) -> f64 {
    let mut placed: Vec<T> = vec![prepared(live); run % LINES + 1];
    let t = placed.last_mut().unwrap();
    // Whom a call may be about: someone live, or for an opening a newcomer.
    let people = match case {
        Case::Open(newcomers) => PLACES..PLACES + newcomers,
        _ => 0..live.max(1),
    };
    let n = people.len();
    let ids: Vec<[u8; 16]> = people.clone().map(identifier).collect();
    let eps: Vec<u32> = people.map(endpoint).collect();
    // Whom each call is about: one of them, at random, in each run in another order, so that no
    // processor learns it.
    let mut r = Random(run as u64);
    let who: Vec<usize> = (0..CALLS).map(|_| r.below(n)).collect();
    let at = |i: usize| who[i % who.len()];
    let mut page = vec![0xEE; 4096 + 4200];
    let out = &mut page[run % LINES * 64..][..4200];
    let mut record = [0xEE; RECORD];
    let mut more = [0; 3];
    match case {
        Case::Start if live == 0 => {
            let down = T::first();
            moving(&down, |t, _| t.start(black_box(&[0, 9, 0, 10]), out))
        }
        Case::Start => still(t, |t, _| t.start(black_box(&[0, 9, 0, 10]), out)),
        Case::Open(_) if live == PLACES => still(t, |t, i| t.open(&ids[at(i)], eps[at(i)])),
        Case::Open(_) => moving(t, |t, i| t.open(&ids[at(i)], eps[at(i)])),
        Case::Packet(n) => {
            let packet = Laid::new(std::iter::once(vec![22; n]), run);
            still(t, |t, i| {
                t.booth_packet(eps[at(i)], black_box(packet.get(0)), out)
            })
        }
        Case::Keys(length) => {
            let m = Laid::new((0..n).map(|i| keys(i, length)), run);
            still(t, |t, i| t.tunnel_octets(m.get(at(i)), &mut more))
        }
        Case::Delivery => {
            let m = Laid::new(ids.iter().map(|id| tunneled_dtls(id, &[22; 1200])), run);
            still(t, |t, i| t.tunnel_octets(m.get(at(i)), &mut more))
        }
        Case::Disconnect => {
            let m = Laid::new(ids.iter().map(|id| message(5, id)), run);
            moving(t, |t, i| t.tunnel_octets(m.get(at(i)), &mut more))
        }
        Case::Version => moving(t, |t, _| {
            t.tunnel_octets(black_box(&[2, 0, 1, 3]), &mut more)
        }),
        Case::Close => moving(t, |t, i| t.close(&ids[at(i)], out)),
        Case::End => moving(t, |t, _| t.end()),
        Case::Look => still(t, |t, i| t.look(eps[at(i)], &mut record)),
        Case::Page => still(t, |t, _| t.write_page(out)),
    }
}

fn median(mut v: Vec<f64>) -> f64 {
    v.sort_by(f64::total_cmp);
    v[v.len() / 2]
}

fn rows() -> Vec<Row> {
    let mut rows = vec![Row {
        call: "start",
        answer: "accepted",
        case: Case::Start,
        live: 0,
    }];
    for (call, answer, case) in [
        ("start", "refusal 17", Case::Start),
        ("open", "the same newcomer; at 32 refusal 10", Case::Open(1)),
        (
            "open",
            "newcomers at random; at 32 refusal 10",
            Case::Open(NEWCOMERS),
        ),
        ("booth packet", "100 octets", Case::Packet(100)),
        ("booth packet", "1,200 octets", Case::Packet(1200)),
        ("tunnel octets", "keys of 16, salts of 12", Case::Keys(16)),
        (
            "tunnel octets",
            "keys, salts of 32, MKI of 16",
            Case::Keys(32),
        ),
        ("tunnel octets", "1,200 DTLS octets", Case::Delivery),
        ("tunnel octets", "disconnect", Case::Disconnect),
        ("tunnel octets", "version", Case::Version),
        ("close", "accepted", Case::Close),
        ("end", "accepted", Case::End),
        ("look", "keyed record", Case::Look),
        ("write page", "keyed records", Case::Page),
    ] {
        for live in [1, 16, 32] {
            rows.push(Row {
                call,
                answer,
                case,
                live,
            });
        }
    }
    rows
}

/// The tables in the order of the columns, the proved one first.
const TABLES: [fn(Case, usize, usize) -> f64; 3] =
    [once::<Rattle>, once::<Rust<Scan>>, once::<Rust<Sorted>>];

/// ns per call of each table.
type Figures = [f64; 3];

/// The tables in the order of a run. Each is the first in every third run, and the other two follow
/// in either order by turns.
fn turns(run: usize) -> [usize; 3] {
    let step = 1 + run / 3 % 2;
    [0, 1, 2].map(|i| (run + i * step) % 3)
}

/// ns per call of each table in this process: the medians of its runs.
fn medians(row: &Row) -> Figures {
    let mut ns = [(); 3].map(|()| vec![]);
    for run in 0..RUNS {
        for table in turns(run) {
            ns[table].push(TABLES[table](row.case, row.live, run));
        }
    }
    ns.map(median)
}

/// The medians of every row, from a process of their own.
fn another_process(program: &str) -> Vec<Figures> {
    let output = Command::new(program).arg("--figures").output().unwrap();
    let text = String::from_utf8(output.stdout).unwrap();
    text.lines()
        .map(|line| {
            let ns: Vec<f64> = line.split(' ').map(|x| x.parse().unwrap()).collect();
            ns.try_into().unwrap()
        })
        .collect()
}

/// The median over the processes of what each gives.
fn over(figures: &[Vec<Figures>], of: impl Fn(&[Figures]) -> f64) -> f64 {
    median(figures.iter().map(|process| of(process)).collect())
}

fn print_figures(figures: &[Vec<Figures>]) {
    print!("\n| call | case | live | ns Rattle | ns Rust, scan | ns Rust, sorted index |");
    println!(" scan / Rattle | sorted / Rattle |");
    println!("|---|---|---:|---:|---:|---:|---:|---:|");
    for (i, row) in rows().iter().enumerate() {
        let [a, b, c] = [0, 1, 2].map(|t| over(figures, |p| p[i][t]));
        let [scan, sorted] = [1, 2].map(|t| over(figures, |p| p[i][t] / p[i][0]));
        let Row {
            call, answer, live, ..
        } = row;
        println!(
            "| {call} | {answer} | {live} | {a:.1} | {b:.1} | {c:.1} | {scan:.2} | {sorted:.2} |"
        );
    }
}

/// The ratio of a call over its cases, each of which counts alike: their geometric mean.
fn ratio(process: &[Figures], call: &str, live: usize, table: usize) -> f64 {
    let rows = rows();
    let cases = rows
        .iter()
        .zip(process)
        .filter(|(row, _)| row.call == call && row.live == live);
    let logs: Vec<f64> = cases.map(|(_, ns)| (ns[table] / ns[0]).ln()).collect();
    (logs.iter().sum::<f64>() / logs.len() as f64).exp()
}

fn print_calls(figures: &[Vec<Figures>]) {
    print!("\n| call | scan / Rattle, 1 live | 16 live | 32 live |");
    println!(" sorted / Rattle, 1 live | 16 live | 32 live |");
    println!("|---|---:|---:|---:|---:|---:|---:|");
    for call in NAMES {
        print!("| {call} |");
        for table in [1, 2] {
            for live in [1, 16, 32] {
                print!(" {:.2} |", over(figures, |p| ratio(p, call, live, table)));
            }
        }
        println!();
    }
}

fn print_agreement() {
    let seen = agree::run::<Rattle>(3000, 1000);
    println!("All tables gave the same answers and octets (3,000 random lists of 1,000 calls):\n");
    println!("| call | accepted, or more needed | refused |\n|---|---:|---:|");
    for (name, [accepted, refused]) in NAMES.iter().zip(seen) {
        println!("| {name} | {accepted} | {refused} |");
    }

    agree::run::<stack::Painted>(300, 1000);
    println!("\nThe most stack that a call took, in octets (300 random lists of 1,000 calls):\n");
    println!("| call | stack |\n|---|---:|");
    for (name, most) in NAMES.iter().zip(stack::most()) {
        println!("| {name} | {most} |");
    }
}

/// The page that is measured.
fn page<T: Calls>(live: usize) -> Vec<u8> {
    let mut out = [0xEE; 4200];
    let n = prepared::<T>(live).write_page(&mut out);
    out[..n as usize].to_vec()
}

/// What the figures rest on.
fn assert_fair() {
    assert_eq!(unsafe { calls::measure_block() }, calls::BLOCK as u64);
    for size in [
        size_of::<Rattle>(),
        size_of::<Rust<Scan>>(),
        size_of::<Rust<Sorted>>(),
    ] {
        assert_eq!(size / 64 % 2, 1);
    }
    for live in [1, 16, 32] {
        let pages = [
            page::<Rattle>(live),
            page::<Rust<Scan>>(live),
            page::<Rust<Sorted>>(live),
        ];
        assert_eq!(pages[0].len(), (6 + 38 * live).div_ceil(8));
        assert!(pages[1] == pages[0] && pages[2] == pages[0]);
    }
    let live: Vec<u32> = (0..PLACES).map(endpoint).collect();
    assert!((PLACES..PLACES + NEWCOMERS).all(|i| !live.contains(&endpoint(i))));
}

/// The arguments are the programs that measure: this one, built for each place of the code.
fn main() {
    assert_fair();
    let words: Vec<String> = std::env::args().skip(1).collect();
    if words == ["--figures"] {
        for row in rows() {
            let [a, b, c] = medians(&row);
            println!("{a} {b} {c}");
        }
        return;
    }
    print_agreement();
    let turns = (0..PROCESSES).flat_map(|_| &words);
    let figures: Vec<_> = turns.map(|program| another_process(program)).collect();
    print_figures(&figures);
    print_calls(&figures);
}
