//! AES, written from FIPS 197 alone: every table is worked out from the field's rules, none is written down. Keys of 16
//! octets; and of 24, because the examples of RFC 5649 have no shorter ones.

/// Section 4.2: the product of two polynomials modulo x^8 + x^4 + x^3 + x + 1.
pub const fn times(a: u8, b: u8) -> u8 {
    let (mut a, mut b, mut product) = (a, b, 0);
    while b > 0 {
        if b & 1 == 1 {
            product ^= a;
        }
        let carry = a & 0x80 != 0;
        a <<= 1;
        if carry {
            a ^= 0x1B;
        }
        b >>= 1;
    }
    product
}

/// The inverse in the field; 0 for 0. The field has 255 elements beside 0, so it is the 254th power.
pub const fn inverse(octet: u8) -> u8 {
    let (mut power, mut product, mut bit) = (octet, 1, 0);
    while bit < 8 {
        if 254 >> bit & 1 == 1 {
            product = times(product, power);
        }
        power = times(power, power);
        bit += 1;
    }
    product
}

/// Bit i modulo 8.
const fn bit(octet: u8, i: usize) -> u8 {
    octet >> (i % 8) & 1
}

/// Section 5.1.1, equation 5.1, of the inverse.
const fn substitute(octet: u8) -> u8 {
    let b = inverse(octet);
    let (mut result, mut i) = (0, 0);
    while i < 8 {
        let sum = bit(b, i) ^ bit(b, i + 4) ^ bit(b, i + 5) ^ bit(b, i + 6) ^ bit(b, i + 7) ^ bit(0x63, i);
        result |= sum << i;
        i += 1;
    }
    result
}

const fn s_box() -> [u8; 256] {
    let (mut table, mut i) = ([0; 256], 0);
    while i < 256 {
        table[i] = substitute(i as u8);
        i += 1;
    }
    table
}

const fn inverse_s_box() -> [u8; 256] {
    let (mut table, mut i) = ([0; 256], 0);
    while i < 256 {
        table[S_BOX[i] as usize] = i as u8;
        i += 1;
    }
    table
}

/// The multiples of a constant.
const fn multiples(of: u8) -> [u8; 256] {
    let (mut table, mut i) = ([0; 256], 0);
    while i < 256 {
        table[i] = times(i as u8, of);
        i += 1;
    }
    table
}

const S_BOX: [u8; 256] = s_box();
const INVERSE_S_BOX: [u8; 256] = inverse_s_box();
/// The first row of the matrix of section 5.1.3, and of 5.3.3; each row below is the one above, turned by one.
static MIX: [[u8; 256]; 4] = [multiples(2), multiples(3), multiples(1), multiples(1)];
static UNMIX: [[u8; 256]; 4] = [multiples(0x0E), multiples(0x0B), multiples(0x0D), multiples(0x09)];

/// Octets in the order in which they come: row r of column c is octet r + 4c (section 3.4).
pub type Block = [u8; 16];

pub struct Aes {
    round_keys: Vec<Block>,
}

impl Aes {
    /// Section 5.2.
    pub fn new(key: &[u8]) -> Aes {
        assert!(key.len() == 16 || key.len() == 24);
        let nk = key.len() / 4;
        let rounds = nk + 6;
        let mut words: Vec<[u8; 4]> = key.chunks(4).map(|word| word.try_into().unwrap()).collect();
        let mut constant = 1;
        for i in nk..4 * (rounds + 1) {
            let mut word = words[i - 1];
            if i % nk == 0 {
                word.rotate_left(1);
                word = word.map(|octet| S_BOX[octet as usize]);
                word[0] ^= constant;
                constant = times(constant, 2);
            }
            words.push(std::array::from_fn(|j| words[i - nk][j] ^ word[j]));
        }
        Aes { round_keys: words.chunks(4).map(|four| four.concat().try_into().unwrap()).collect() }
    }

    /// Section 5.1.
    pub fn encrypt(&self, block: Block) -> Block {
        let last = self.round_keys.len() - 1;
        let mut state = add(block, &self.round_keys[0]);
        for round_key in &self.round_keys[1..last] {
            state = add(mix(shift_rows(through(state, &S_BOX)), &MIX), round_key);
        }
        add(shift_rows(through(state, &S_BOX)), &self.round_keys[last])
    }

    /// Section 5.3.
    pub fn decrypt(&self, block: Block) -> Block {
        let last = self.round_keys.len() - 1;
        let mut state = add(block, &self.round_keys[last]);
        for round_key in self.round_keys[1..last].iter().rev() {
            state = mix(add(through(unshift_rows(state), &INVERSE_S_BOX), round_key), &UNMIX);
        }
        add(through(unshift_rows(state), &INVERSE_S_BOX), &self.round_keys[0])
    }

    /// The round keys, one after the other.
    pub fn schedule(&self) -> Vec<u8> {
        self.round_keys.concat()
    }
}

fn add(state: Block, round_key: &Block) -> Block {
    std::array::from_fn(|i| state[i] ^ round_key[i])
}

fn through(state: Block, table: &[u8; 256]) -> Block {
    state.map(|octet| table[octet as usize])
}

/// Section 5.1.2: row r is turned by r to the left.
fn shift_rows(state: Block) -> Block {
    std::array::from_fn(|i| state[i % 4 + 4 * ((i / 4 + i % 4) % 4)])
}

/// Section 5.3.1: to the right.
fn unshift_rows(state: Block) -> Block {
    std::array::from_fn(|i| state[i % 4 + 4 * ((i / 4 + 4 - i % 4) % 4)])
}

fn mix(state: Block, first_row: &[[u8; 256]; 4]) -> Block {
    std::array::from_fn(|i| {
        let (row, column) = (i % 4, i / 4 * 4);
        (0..4).fold(0, |sum, k| sum ^ first_row[(k + 4 - row) % 4][state[column + k] as usize])
    })
}
