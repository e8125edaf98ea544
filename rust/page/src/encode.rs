//! Bytes as text, and the sum by which a policy names what it allows.

const DIGITS: &[u8; 64] = b"ABCDEFGHIJKLMNOPQRSTUVWXYZabcdefghijklmnopqrstuvwxyz0123456789+/";

/// Bytes in base 64, filled up to whole groups of four.
pub fn base64(bytes: &[u8]) -> String {
    let mut text = String::new();
    for group in bytes.chunks(3) {
        let mut word = 0u32;
        for place in 0..3 {
            word = word << 8 | u32::from(group.get(place).copied().unwrap_or(0));
        }
        for place in 0..4 {
            let digit = DIGITS[(word >> (18 - 6 * place) & 63) as usize];
            text.push(if place <= group.len() {
                char::from(digit)
            } else {
                '='
            });
        }
    }
    text
}

/// The first 32 bits of the fractional parts of a root, the square root for
/// `power` 2 and the cube root for 3, of a prime: how the numbers of SHA-256 are
/// defined.
fn fraction(prime: u128, power: u32) -> u32 {
    let shifted = prime << (32 * power);
    let (mut low, mut high) = (0u128, 1u128 << 40);
    while high - low > 1 {
        let middle = (low + high) / 2;
        if middle.pow(power) <= shifted {
            low = middle;
        } else {
            high = middle;
        }
    }
    (low & 0xffff_ffff) as u32
}

fn primes() -> impl Iterator<Item = u128> {
    (2u128..).filter(|number| (2..*number).all(|divisor| number % divisor != 0))
}

/// The SHA-256 sum of bytes.
pub fn sha256(bytes: &[u8]) -> [u8; 32] {
    let constants: Vec<u32> = primes().take(64).map(|prime| fraction(prime, 3)).collect();
    let mut state: Vec<u32> = primes().take(8).map(|prime| fraction(prime, 2)).collect();
    let mut padded = bytes.to_vec();
    padded.push(0x80);
    while padded.len() % 64 != 56 {
        padded.push(0);
    }
    padded.extend((8 * bytes.len() as u64).to_be_bytes());
    for block in padded.chunks(64) {
        let turned = rounds(&state, block, &constants);
        for (word, turned) in state.iter_mut().zip(turned) {
            *word = word.wrapping_add(turned);
        }
    }
    let mut sum = [0; 32];
    for (part, word) in sum.chunks_mut(4).zip(state) {
        part.copy_from_slice(&word.to_be_bytes());
    }
    sum
}

fn rounds(state: &[u32], block: &[u8], constants: &[u32]) -> [u32; 8] {
    let words = schedule(block);
    let mut turned: [u32; 8] = std::array::from_fn(|place| state[place]);
    for (word, constant) in words.iter().zip(constants) {
        let [a, b, c, d, e, f, g, h] = turned;
        let high = e.rotate_right(6) ^ e.rotate_right(11) ^ e.rotate_right(25);
        let choice = e & f ^ !e & g;
        let first = [high, choice, *constant, *word]
            .iter()
            .fold(h, |sum, part| sum.wrapping_add(*part));
        let low = a.rotate_right(2) ^ a.rotate_right(13) ^ a.rotate_right(22);
        let most = a & b ^ a & c ^ b & c;
        let second = low.wrapping_add(most);
        turned = [
            first.wrapping_add(second),
            a,
            b,
            c,
            d.wrapping_add(first),
            e,
            f,
            g,
        ];
    }
    turned
}

/// The 64 words that a block of 16 words is stretched to.
fn schedule(block: &[u8]) -> Vec<u32> {
    let mut words: Vec<u32> = block
        .chunks(4)
        .map(|part| {
            part.iter()
                .fold(0, |word, byte| word << 8 | u32::from(*byte))
        })
        .collect();
    for at in 16..64 {
        let (near, far) = (words[at - 2], words[at - 15]);
        let near = near.rotate_right(17) ^ near.rotate_right(19) ^ near >> 10;
        let far = far.rotate_right(7) ^ far.rotate_right(18) ^ far >> 3;
        let sum = [far, words[at - 7], near]
            .iter()
            .fold(words[at - 16], |sum, part| sum.wrapping_add(*part));
        words.push(sum);
    }
    words
}
