//! AES-128 (FIPS 197) as one would write it: by tables of the S-box and its inverse, octet by
//! octet. No unsafe code.

pub const ROUNDS: usize = 10;
pub type Block = [u8; 16];
pub type Schedule = [Block; ROUNDS + 1];

const SBOX: [u8; 256] = sbox();
const INVERSE: [u8; 256] = inverse();

/// p goes through the powers of 3, which are all values but 0, and q through their inverses.
const fn sbox() -> [u8; 256] {
    let mut table = [0; 256];
    let (mut p, mut q) = (1u8, 1u8);
    loop {
        p ^= double(p);
        q ^= q << 1;
        q ^= q << 2;
        q ^= q << 4;
        q ^= (q >> 7) * 0x09;
        let turns = q.rotate_left(1) ^ q.rotate_left(2) ^ q.rotate_left(3) ^ q.rotate_left(4);
        table[p as usize] = q ^ turns ^ 0x63;
        if p == 1 {
            break;
        }
    }
    table[0] = 0x63;
    table
}

const fn inverse() -> [u8; 256] {
    let mut table = [0; 256];
    let mut i = 0;
    while i < 256 {
        table[SBOX[i] as usize] = i as u8;
        i += 1;
    }
    table
}

const fn double(a: u8) -> u8 {
    a << 1 ^ (a >> 7) * 0x1b
}

pub fn expand(key: &Block) -> Schedule {
    let mut w = [[0; 16]; ROUNDS + 1];
    w[0] = *key;
    let mut constant = 1;
    for round in 1..=ROUNDS {
        let before = w[round - 1];
        let mut word = [13, 14, 15, 12].map(|i: usize| SBOX[before[i] as usize]);
        word[0] ^= constant;
        constant = double(constant);
        for i in 0..16 {
            word[i % 4] ^= before[i];
            w[round][i] = word[i % 4];
        }
    }
    w
}

fn add(s: &mut Block, round_key: &Block) {
    for (octet, k) in s.iter_mut().zip(round_key) {
        *octet ^= k;
    }
}

/// Each octet through a table, and each row turned by `by` times its number.
fn substitute(s: &Block, table: &[u8; 256], by: usize) -> Block {
    std::array::from_fn(|i| table[s[(i + 4 * by * (i % 4)) % 16] as usize])
}

fn mix(s: &mut Block) {
    for column in s.chunks_exact_mut(4) {
        let [a, b, c, d] = [column[0], column[1], column[2], column[3]];
        let all = a ^ b ^ c ^ d;
        column[0] = a ^ all ^ double(a ^ b);
        column[1] = b ^ all ^ double(b ^ c);
        column[2] = c ^ all ^ double(c ^ d);
        column[3] = d ^ all ^ double(d ^ a);
    }
}

/// The inverse matrix is the matrix behind a simpler one.
fn unmix(s: &mut Block) {
    for column in s.chunks_exact_mut(4) {
        let u = double(double(column[0] ^ column[2]));
        let v = double(double(column[1] ^ column[3]));
        column[0] ^= u;
        column[1] ^= v;
        column[2] ^= u;
        column[3] ^= v;
    }
    mix(s);
}

pub fn encrypt(w: &Schedule, s: &mut Block) {
    add(s, &w[0]);
    for round_key in &w[1..ROUNDS] {
        *s = substitute(s, &SBOX, 1);
        mix(s);
        add(s, round_key);
    }
    *s = substitute(s, &SBOX, 1);
    add(s, &w[ROUNDS]);
}

pub fn decrypt(w: &Schedule, s: &mut Block) {
    add(s, &w[ROUNDS]);
    for round_key in w[1..ROUNDS].iter().rev() {
        *s = substitute(s, &INVERSE, 3);
        add(s, round_key);
        unmix(s);
    }
    *s = substitute(s, &INVERSE, 3);
    add(s, &w[0]);
}
