//! SHA-256 after FIPS 180-4. The constants are not copied but computed, as the standard describes them.

use std::sync::LazyLock;

/// 4.2.2: "the first thirty-two bits of the fractional parts of the cube roots of the first sixty-four primes".
static K: LazyLock<Vec<u32>> = LazyLock::new(|| primes(64).map(|prime| fraction(prime, 3)).collect());

/// 5.3.3: the same of the square roots of the first eight primes.
static INITIAL: LazyLock<Vec<u32>> = LazyLock::new(|| primes(8).map(|prime| fraction(prime, 2)).collect());

fn primes(count: usize) -> impl Iterator<Item = u128> {
    let is_prime = |number: &u128| (2..*number).all(|divisor| !number.is_multiple_of(divisor));
    (2..).filter(is_prime).take(count)
}

/// 32 bits after the point of a root: the whole root of number * 2^(32 * degree), modulo 2^32.
fn fraction(number: u128, degree: u32) -> u32 {
    let target = number << (32 * degree);
    let (mut low, mut high) = (0_u128, 1 << 40);
    while high - low > 1 {
        let middle = (low + high) / 2;
        if middle.pow(degree) <= target {
            low = middle;
        } else {
            high = middle;
        }
    }
    low as u32
}

/// 6.2, on the whole padded message.
pub fn hash(message: &[u8]) -> [u8; 32] {
    let state = padded(message).chunks(64).fold(INITIAL.clone(), |state, block| compressed(&state, block));
    let mut digest = [0; 32];
    for (place, word) in digest.chunks_mut(4).zip(state) {
        place.copy_from_slice(&word.to_be_bytes());
    }
    digest
}

/// 5.1.1: the bit 1, zeros up to 56 bytes modulo 64, the length in bits.
fn padded(message: &[u8]) -> Vec<u8> {
    let mut all = message.to_vec();
    all.push(0x80);
    while all.len() % 64 != 56 {
        all.push(0);
    }
    all.extend((message.len() as u64 * 8).to_be_bytes());
    all
}

/// 6.2.2 for one block.
fn compressed(state: &[u32], block: &[u8]) -> Vec<u32> {
    let [mut a, mut b, mut c, mut d, mut e, mut f, mut g, mut h] = <[u32; 8]>::try_from(state).expect("eight words");
    for (word, constant) in schedule(block).iter().zip(K.iter()) {
        let t1 = sum(&[h, big_sigma_1(e), (e & f) ^ (!e & g), *constant, *word]);
        let t2 = sum(&[big_sigma_0(a), (a & b) ^ (a & c) ^ (b & c)]);
        (h, g, f, e, d, c, b, a) = (g, f, e, sum(&[d, t1]), c, b, a, sum(&[t1, t2]));
    }
    let last = [a, b, c, d, e, f, g, h];
    state.iter().zip(last).map(|(before, after)| sum(&[*before, after])).collect()
}

fn schedule(block: &[u8]) -> Vec<u32> {
    let mut words: Vec<u32> = block.chunks(4).map(|four| u32::from_be_bytes([four[0], four[1], four[2], four[3]])).collect();
    for t in 16..64 {
        let word = sum(&[small_sigma_1(words[t - 2]), words[t - 7], small_sigma_0(words[t - 15]), words[t - 16]]);
        words.push(word);
    }
    words
}

/// Addition modulo 2^32.
fn sum(words: &[u32]) -> u32 {
    (words.iter().map(|word| u64::from(*word)).sum::<u64>() % (1 << 32)) as u32
}

fn big_sigma_0(x: u32) -> u32 {
    x.rotate_right(2) ^ x.rotate_right(13) ^ x.rotate_right(22)
}

fn big_sigma_1(x: u32) -> u32 {
    x.rotate_right(6) ^ x.rotate_right(11) ^ x.rotate_right(25)
}

fn small_sigma_0(x: u32) -> u32 {
    x.rotate_right(7) ^ x.rotate_right(18) ^ x >> 3
}

fn small_sigma_1(x: u32) -> u32 {
    x.rotate_right(17) ^ x.rotate_right(19) ^ x >> 10
}
