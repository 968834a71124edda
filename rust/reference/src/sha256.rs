//! SHA-256, for vectors that give a file by its hash.

/// The first 32 bits after the point of the cube roots (or with `power` 2 the square roots) of the first primes.
fn roots<const N: usize>(power: u32) -> [u32; N] {
    let is_prime = |n: &u128| (2..*n).all(|d| n / d * d < *n);
    let mut primes = (2..).filter(is_prime);
    std::array::from_fn(|_| {
        // the greatest root with root ^ power <= prime * 2 ^ (32 * power)
        let most = primes.next().expect("a prime") << (32 * power);
        let bits = (0..36).rev();
        let root = bits.fold(0_u128, |root, bit| {
            let next = root | 1 << bit;
            if next.pow(power) <= most {
                next
            } else {
                root
            }
        });
        root as u32
    })
}

/// The hash in hexadecimal.
pub fn sha256(bytes: &[u8]) -> String {
    let constants = roots::<64>(3);
    let mut hash = roots::<8>(2);
    let mut padded = bytes.to_vec();
    padded.push(0x80);
    padded.resize((bytes.len() + 9).next_multiple_of(64) - 8, 0);
    padded.extend_from_slice(&(8 * bytes.len() as u64).to_be_bytes());
    for chunk in padded.chunks_exact(64) {
        mix(&mut hash, chunk, &constants);
    }
    hash.iter().map(|word| format!("{word:08x}")).collect()
}

fn mix(hash: &mut [u32; 8], chunk: &[u8], constants: &[u32; 64]) {
    let mut words = [0_u32; 64];
    for (word, bytes) in words.iter_mut().zip(chunk.chunks_exact(4)) {
        *word = bytes
            .iter()
            .fold(0, |word, &byte| word << 8 | u32::from(byte));
    }
    let turned = |x: u32, a, b, c| x.rotate_right(a) ^ x.rotate_right(b) ^ c;
    for i in 16..64 {
        let (x, y) = (words[i - 15], words[i - 2]);
        words[i] = words[i - 16]
            .wrapping_add(turned(x, 7, 18, x >> 3))
            .wrapping_add(words[i - 7])
            .wrapping_add(turned(y, 17, 19, y >> 10));
    }
    let [mut a, mut b, mut c, mut d, mut e, mut f, mut g, mut h] = *hash;
    for (constant, word) in constants.iter().zip(words) {
        let first = h
            .wrapping_add(turned(e, 6, 11, e.rotate_right(25)))
            .wrapping_add((e & f) ^ (!e & g))
            .wrapping_add(*constant)
            .wrapping_add(word);
        let second = turned(a, 2, 13, a.rotate_right(22)).wrapping_add((a & b) ^ (a & c) ^ (b & c));
        (h, g, f, e) = (g, f, e, d.wrapping_add(first));
        (d, c, b, a) = (c, b, a, first.wrapping_add(second));
    }
    for (sum, added) in hash.iter_mut().zip([a, b, c, d, e, f, g, h]) {
        *sum = sum.wrapping_add(added);
    }
}

#[cfg(test)]
mod tests {
    use super::*;

    #[test]
    fn known_hashes() {
        let empty = "e3b0c44298fc1c149afbf4c8996fb92427ae41e4649b934ca495991b7852b855";
        assert_eq!(sha256(b""), empty);
        let abc = "ba7816bf8f01cfea414140de5dae2223b00361a396177a9cb410ff61f20015ad";
        assert_eq!(sha256(b"abc"), abc);
    }
}
