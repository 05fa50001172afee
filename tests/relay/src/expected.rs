//! What must have been reached, and how often. Nothing outside the lists may occur.

use crate::cover::{Cover, CALLS};

/// By call: the refusals that it gives, the other answers, and the pairs that apply together, the given one first.
type Row = (&'static [u8], &'static [u8], &'static [(u8, u8)]);

const ROWS: [Row; 14] = [
    (&[17, 16], &[2], &[(17, 16)]),
    (&[1, 20, 11, 12, 10], &[3], &[(1, 20), (20, 12), (20, 10), (11, 12), (11, 10), (12, 10)]),
    (&[1, 6, 14, 15], &[2], &[(1, 6), (1, 14), (1, 15), (6, 14), (6, 15), (14, 15)]),
    (&[1, 20, 6], &[2], &[(1, 20), (1, 6), (20, 6)]),
    (&[1], &[4], &[]),
    (&[1, 6], &[5], &[(1, 6)]),
    (&[1], &[0], &[]),
    (&[1, 2, 4], &[0], &[(1, 2), (1, 4), (1, 5), (2, 4), (4, 5)]),
    (&[1, 5], &[0, 9], &[(1, 5)]),
    (
        &[1, 2, 5, 6, 7, 8, 9],
        &[0, 6],
        &[
            (1, 2),
            (1, 5),
            (1, 6),
            (1, 7),
            (1, 8),
            (1, 9),
            (5, 6),
            (5, 7),
            (5, 8),
            (5, 9),
            (6, 7),
            (6, 8),
            (6, 9),
            (7, 8),
            (7, 9),
            (8, 9),
        ],
    ),
    (&[1, 2, 5, 6], &[0, 7], &[(1, 2), (1, 5), (1, 6), (5, 6)]),
    (&[1, 2, 5, 6], &[0, 8], &[(1, 2), (1, 5), (1, 6), (5, 6)]),
    (&[1, 2, 3], &[0], &[(1, 2), (1, 3), (2, 3)]),
    (&[], &[10], &[]),
];

/// Cases by name, with their numbers: from the first to the last.
const CASES: [(&str, usize, usize); 64] = [
    ("unknown kind", 0, 0),
    ("unknown kind", 9, 255),
    ("unknown kind in a frame of the limit", 0, 0),
    ("above the limit, exactly", 4101, 4101),
    ("above the limit, exactly", 65535, 65535),
    ("above the limit and of unknown kind", 0, 0),
    ("above the limit, others", 0, 0),
    ("empty frame", 0, 0),
    ("frame too short or long, kind", 2, 3),
    ("frame too short or long, kind", 6, 8),
    ("frame too long, kind", 6, 8),
    ("frame of the limit, kind", 1, 2),
    ("frame of the limit, kind", 5, 5),
    ("opened at place", 0, 31),
    ("freed place used again", 0, 0),
    ("table made full", 0, 0),
    ("refused with 10, accepted after one close", 0, 0),
    ("longest packet written", 0, 0),
    ("packet written, first octet", 20, 63),
    ("packet one too long", 0, 0),
    ("empty packet", 0, 0),
    ("packet not DTLS, first octet", 0, 19),
    ("packet not DTLS, first octet", 64, 255),
    ("a second message behind the first, not read", 0, 0),
    ("longest delivery", 0, 0),
    ("shortest delivery", 0, 0),
    ("type 2 above the limit", 0, 1),
    ("type 2: octets there, against its length (0 fewer, 1 as many, 2 more)", 0, 2),
    ("length above the limit", 0, 1),
    ("unlisted type", 0, 0),
    ("unlisted type", 6, 255),
    ("body of the limit", 0, 0),
    ("more needed, type", 0, 6),
    ("keyed record keyed again", 0, 0),
    ("open record keyed", 0, 0),
    ("stored under profile", 9, 10),
    ("stored MKI", 0, 16),
    ("stored client salt", 1, 32),
    ("stored server salt", 1, 32),
    ("only the client key's length wrong", 16, 16),
    ("only the client key's length wrong", 32, 32),
    ("only the server key's length wrong", 16, 16),
    ("only the server key's length wrong", 32, 32),
    ("keys of the other profile", 16, 16),
    ("keys of the other profile", 32, 32),
    ("only the MKI too long, by one", 0, 1),
    ("only the client salt too long, by one", 0, 1),
    ("only the server salt too long, by one", 0, 1),
    ("bad body: empty", 3, 5),
    ("bad body: ends in the identifier", 3, 5),
    ("bad body: ends in a field", 3, 3),
    ("bad body: octets behind the last field", 3, 3),
    ("bad body: empty key or salt", 3, 3),
    ("bad body: no length", 4, 4),
    ("bad body: no DTLS octets", 4, 4),
    ("bad body: length too small", 4, 4),
    ("bad body: length too large", 4, 4),
    ("bad body: octets behind the identifier", 5, 5),
    ("page with the tunnel down", 0, 0),
    ("page of so many entries", 0, 32),
    ("page of open and keyed entries", 0, 0),
    ("page with a free place below a live one", 0, 0),
    ("open entry of place", 0, 31),
    ("keyed entry of place", 0, 31),
];

/// Prints what was reached; the lines of what was not reached often enough, or should not occur.
pub fn judge(cover: &Cover) -> Vec<String> {
    let often = cover.requests / 10_000;
    let rarely = cover.requests / 200_000;
    println!("answers by kind: {}", list(cover.kinds.iter().map(|(kind, count)| format!("{kind}: {count}"))));
    let mut wrong = Vec::new();
    for (call, row) in ROWS.iter().enumerate() {
        print_call(cover, call);
        wrong.extend(judge_call(cover, call, row, often));
    }
    for &(name, first, last) in &CASES {
        let least = (first..=last).map(|number| count(&cover.cases, &(name, number))).min().unwrap_or(0);
        println!("  {name} {first} to {last}: at least {least} of each");
        if least < rarely {
            wrong.push(format!("{name}, {first} to {last}: only {least} of one, {rarely} demanded"));
        }
    }
    let listed = |name: &str, number: usize| {
        CASES.iter().any(|&(other, first, last)| other == name && (first..=last).contains(&number))
    };
    let stray = cover.cases.keys().filter(|(name, number)| !listed(name, *number));
    wrong.extend(stray.map(|(name, number)| format!("{name} {number}: should not occur")));
    println!("least demanded: {often} of each refusal, answer and pair by call, {rarely} of each single case");
    wrong
}

fn list(items: impl Iterator<Item = String>) -> String {
    items.collect::<Vec<_>>().join(", ")
}

fn count<K: Ord>(counts: &std::collections::BTreeMap<K, u64>, key: &K) -> u64 {
    counts.get(key).copied().unwrap_or(0)
}

fn print_call(cover: &Cover, call: usize) {
    let of_call = |(key, count): (&(usize, u8), &u64)| (key.0 == call).then(|| format!("{}: {count}", key.1));
    println!("{}: answers {}", CALLS[call], list(cover.answers.iter().filter_map(of_call)));
    println!("  refusals {}", list(cover.given.iter().filter_map(of_call)));
    let pairs = cover.both.iter().filter(|(key, _)| key.0 == call);
    println!(
        "  given and another that applies {}",
        list(pairs.map(|(key, count)| format!("{}&{}: {count}", key.1, key.2)))
    );
}

fn judge_call(cover: &Cover, call: usize, row: &Row, least: u64) -> Vec<String> {
    let (refusals, answers, pairs) = *row;
    let mut wrong = Vec::new();
    for &number in refusals.iter().filter(|&&number| count(&cover.given, &(call, number)) < least) {
        wrong.push(format!("{}: refusal {number} too seldom", CALLS[call]));
    }
    for &kind in answers.iter().filter(|&&kind| count(&cover.answers, &(call, kind)) < least) {
        wrong.push(format!("{}: answer {kind} too seldom", CALLS[call]));
    }
    for &(given, other) in pairs.iter().filter(|&&(given, other)| count(&cover.both, &(call, given, other)) < least) {
        wrong.push(format!("{}: refusal {given} while {other} applies, too seldom", CALLS[call]));
    }
    for key in cover.given.keys().filter(|key| key.0 == call && !refusals.contains(&key.1)) {
        wrong.push(format!("{}: refusal {} should not occur", CALLS[call], key.1));
    }
    for key in cover.answers.keys().filter(|key| key.0 == call && key.1 != 1 && !answers.contains(&key.1)) {
        wrong.push(format!("{}: answer {} should not occur", CALLS[call], key.1));
    }
    for key in cover.both.keys().filter(|key| key.0 == call && !pairs.contains(&(key.1, key.2))) {
        wrong.push(format!("{}: refusals {} and {} should not meet", CALLS[call], key.1, key.2));
    }
    wrong
}
