//! Positions: fractions in base 95, a digit a byte from the blank on, that don't end in a 0.

const MAX_LEN: usize = 128;
const BASE: u32 = 95;

pub type Pos = Vec<u8>;

/// The position that these bytes spell.
pub fn read(bytes: &[u8]) -> Option<Pos> {
    let last = *bytes.last()?;
    let is_position = bytes.len() <= MAX_LEN && bytes.iter().all(|b| (32..=126).contains(b));
    (is_position && last != b' ').then(|| bytes.to_vec())
}

/// The middle of two ends, where no upper end is 1: of the least length at which a fraction lies
/// strictly between them.
pub fn middle(low: &[u8], high: Option<&[u8]>) -> Option<Pos> {
    (1..=MAX_LEN).find_map(|len| {
        let least = add_one(number(low, len));
        let greatest = greatest_below(high, len);
        (least <= greatest).then(|| half(&least, &greatest))
    })
}

/// The first `len` digits as a number, with a digit for a carry in front.
fn number(bytes: &[u8], len: usize) -> Vec<u32> {
    let mut digits = vec![0; len + 1];
    for (digit, byte) in digits[1..].iter_mut().zip(bytes) {
        *digit = u32::from(byte - 32);
    }
    digits
}

/// The greatest number of `len` digits below an end.
fn greatest_below(high: Option<&[u8]>, len: usize) -> Vec<u32> {
    match high {
        Some(bytes) if bytes.len() > len => number(bytes, len),
        Some(bytes) => take_one(number(bytes, len)),
        None => (0..=len)
            .map(|i| if i == 0 { 0 } else { BASE - 1 })
            .collect(),
    }
}

fn add_one(mut digits: Vec<u32>) -> Vec<u32> {
    let last = digits.iter().rposition(|d| *d < BASE - 1).unwrap_or(0);
    digits[last] += 1;
    digits[last + 1..].fill(0);
    digits
}

fn take_one(mut digits: Vec<u32>) -> Vec<u32> {
    let last = digits.iter().rposition(|d| *d > 0).unwrap_or(0);
    digits[last] -= 1;
    digits[last + 1..].fill(BASE - 1);
    digits
}

/// Half the sum of two numbers, rounded down, as a position.
fn half(a: &[u32], b: &[u32]) -> Pos {
    let mut rest = 0;
    let mut halves = Vec::with_capacity(a.len());
    for (a, b) in a.iter().zip(b) {
        let sum = rest * BASE + a + b;
        halves.push(sum / 2);
        rest = sum % 2;
    }
    for i in (1..halves.len()).rev() {
        halves[i - 1] += halves[i] / BASE;
        halves[i] %= BASE;
    }
    halves[1..].iter().map(|d| *d as u8 + 32).collect()
}
