//! FIPS 180-4: SHA-256, a byte at a time.
use super::Label;
use mastdock::{Hash, Hashed};

/// The whole root of degree `degree` of a number.
const fn root(x: u128, degree: u32) -> u128 {
    let (mut low, mut high) = (0u128, 1u128 << 40);
    while high - low > 1 {
        let middle = (low + high) / 2;
        let mut power = 1u128;
        let mut i = 0;
        while i < degree {
            power *= middle;
            i += 1;
        }
        if power <= x {
            low = middle;
        } else {
            high = middle;
        }
    }
    low
}

const fn is_prime(x: u128) -> bool {
    let mut d = 2;
    while d * d <= x {
        if x % d == 0 {
            return false;
        }
        d += 1;
    }
    true
}

/// 'The first thirty-two bits of the fractional parts' of the square or cube roots of the first `COUNT` primes.
const fn fractions<const COUNT: usize>(degree: u32) -> [u32; COUNT] {
    let mut words = [0; COUNT];
    let (mut i, mut prime) = (0, 2u128);
    while i < COUNT {
        if is_prime(prime) {
            words[i] = root(prime << (32 * degree), degree) as u32;
            i += 1;
        }
        prime += 1;
    }
    words
}

/// 5.3.3 and 4.2.2.
static INITIAL: [u32; 8] = fractions(2);
static K: [u32; 64] = fractions(3);

/// 6.2.2, for one block.
fn compress(hash: &mut [u32; 8], block: &[u8; 64]) {
    let mut w = [0u32; 64];
    for t in 0..16 {
        w[t] = u32::from_be_bytes(block[4 * t..4 * t + 4].try_into().unwrap());
    }
    for t in 16..64 {
        let s0 = w[t - 15].rotate_right(7) ^ w[t - 15].rotate_right(18) ^ (w[t - 15] >> 3);
        let s1 = w[t - 2].rotate_right(17) ^ w[t - 2].rotate_right(19) ^ (w[t - 2] >> 10);
        w[t] = s1.wrapping_add(w[t - 7]).wrapping_add(s0).wrapping_add(w[t - 16]);
    }
    let [mut a, mut b, mut c, mut d, mut e, mut f, mut g, mut h] = *hash;
    for t in 0..64 {
        let big1 = e.rotate_right(6) ^ e.rotate_right(11) ^ e.rotate_right(25);
        let ch = (e & f) ^ (!e & g);
        let t1 = h.wrapping_add(big1).wrapping_add(ch).wrapping_add(K[t]).wrapping_add(w[t]);
        let big0 = a.rotate_right(2) ^ a.rotate_right(13) ^ a.rotate_right(22);
        let maj = (a & b) ^ (a & c) ^ (b & c);
        let t2 = big0.wrapping_add(maj);
        (h, g, f, e, d, c, b, a) = (g, f, e, d.wrapping_add(t1), c, b, a, t1.wrapping_add(t2));
    }
    for (word, x) in hash.iter_mut().zip([a, b, c, d, e, f, g, h]) {
        *word = word.wrapping_add(x);
    }
}

/// A state that has taken nothing.
pub fn new() -> Hash {
    Hash { words: INITIAL, tail: [0; 64], taken: 0 }
}

/// One byte goes into the tail; a full tail is compressed and set to zero (docs/DECISIONS.md).
fn push(hash: &mut Hash, byte: u8) {
    let at = (hash.taken % 64) as usize;
    hash.tail[at] = byte;
    hash.taken += 1;
    if at == 63 {
        compress(&mut hash.words, &hash.tail);
        hash.tail = [0; 64];
    }
}

/// '5: over 2^61 − 1 bytes in all'.
fn too_many(taken: u64, more: usize) -> bool {
    taken as u128 + more as u128 > (1 << 61) - 1
}

/// Row 'Hashing, each portion'. 'A refused hash state is handed back unchanged.'
pub fn update(hash: &mut Hash, part: &[u8]) -> Result<(), u64> {
    if too_many(hash.taken, part.len()) {
        return Err(5);
    }
    part.iter().for_each(|byte| push(hash, *byte));
    Ok(())
}

/// W-207: 'the 64-byte blocks it compressed, which for L bytes is (L + 8) divided by 64, rounded down, plus 1'.
pub fn blocks(len: u64) -> u64 {
    (len + 8) / 64 + 1
}

/// Row 'Hashing, the end'. 5.1.1: the bit 1, zero bits, and the length in 64 bits. With these the
/// message is of whole blocks, as many as W-207 says.
pub fn finish(hash: &Hash) -> Result<Hashed, u64> {
    if too_many(hash.taken, 0) {
        return Err(5);
    }
    let bits = 8 * hash.taken;
    let mut end = hash.clone();
    push(&mut end, 0x80);
    while end.taken % 64 != 56 {
        push(&mut end, 0);
    }
    bits.to_be_bytes().into_iter().for_each(|byte| push(&mut end, byte));
    assert_eq!(end.taken, 64 * blocks(hash.taken));
    let mut digest = [0; 32];
    for (bytes, word) in digest.chunks_exact_mut(4).zip(end.words) {
        bytes.copy_from_slice(&word.to_be_bytes());
    }
    Ok(Hashed { digest, blocks: blocks(hash.taken) })
}

/// SHA-256 of a message, and its blocks.
pub fn hashed(message: &[u8]) -> Hashed {
    let mut hash = new();
    update(&mut hash, message).unwrap();
    finish(&hash).unwrap()
}

/// SHA-256 of a message.
pub fn digest(message: &[u8]) -> Label {
    hashed(message).digest
}
