//! SHA-256 in portable Rust, in the forms of the toolchain's `sha2`.

pub type Digest = [u8; 32];

const START: [u32; 8] = [
    0x6a09e667, 0xbb67ae85, 0x3c6ef372, 0xa54ff53a, 0x510e527f, 0x9b05688c, 0x1f83d9ab, 0x5be0cd19,
];

#[rustfmt::skip]
static K: [u32; 64] = [
    0x428a2f98, 0x71374491, 0xb5c0fbcf, 0xe9b5dba5, 0x3956c25b, 0x59f111f1, 0x923f82a4, 0xab1c5ed5,
    0xd807aa98, 0x12835b01, 0x243185be, 0x550c7dc3, 0x72be5d74, 0x80deb1fe, 0x9bdc06a7, 0xc19bf174,
    0xe49b69c1, 0xefbe4786, 0x0fc19dc6, 0x240ca1cc, 0x2de92c6f, 0x4a7484aa, 0x5cb0a9dc, 0x76f988da,
    0x983e5152, 0xa831c66d, 0xb00327c8, 0xbf597fc7, 0xc6e00bf3, 0xd5a79147, 0x06ca6351, 0x14292967,
    0x27b70a85, 0x2e1b2138, 0x4d2c6dfc, 0x53380d13, 0x650a7354, 0x766a0abb, 0x81c2c92e, 0x92722c85,
    0xa2bfe8a1, 0xa81a664b, 0xc24b8b70, 0xc76c51a3, 0xd192e819, 0xd6990624, 0xf40e3585, 0x106aa070,
    0x19a4c116, 0x1e376c08, 0x2748774c, 0x34b0bcb5, 0x391c0cb3, 0x4ed8aa4a, 0x5b9cca4f, 0x682e6ff3,
    0x748f82ee, 0x78a5636f, 0x84c87814, 0x8cc70208, 0x90befffa, 0xa4506ceb, 0xbef9a3f7, 0xc67178f2,
];

/// Returns the digest of a whole message.
#[inline(never)]
pub fn sha256(message: &[u8]) -> Digest {
    let mut state = START;
    let whole = message.len() / 64 * 64;
    compress(&mut state, &message[..whole]);
    let rest = &message[whole..];
    let mut tail = [0u8; 128];
    tail[..rest.len()].copy_from_slice(rest);
    tail[rest.len()] = 0x80;
    let end = if rest.len() < 56 { 64 } else { 128 };
    tail[end - 8..end].copy_from_slice(&(message.len() as u64 * 8).to_be_bytes());
    compress(&mut state, &tail[..end]);
    let mut digest = [0u8; 32];
    for (bytes, word) in digest.chunks_exact_mut(4).zip(state) {
        bytes.copy_from_slice(&word.to_be_bytes());
    }
    digest
}

#[inline(never)]
fn compress(state: &mut [u32; 8], blocks: &[u8]) {
    for block in blocks.chunks_exact(64) {
        let mut w = [0u32; 16];
        for (word, bytes) in w.iter_mut().zip(block.chunks_exact(4)) {
            *word = u32::from_be_bytes(bytes.try_into().unwrap());
        }
        let mut v = *state;
        // Sixteen rounds a turn, so that each word has a constant place.
        for turn in 0..4 {
            let k = &K[16 * turn..16 * turn + 16];
            macro_rules! rounds {
                ($($i:literal)*) => {
                    $(
                        if turn > 0 {
                            w[$i] = w[$i]
                                .wrapping_add(small_sigma0(w[($i + 1) % 16]))
                                .wrapping_add(w[($i + 9) % 16])
                                .wrapping_add(small_sigma1(w[($i + 14) % 16]));
                        }
                        round(&mut v, $i, k[$i].wrapping_add(w[$i]));
                    )*
                };
            }
            rounds!(0 1 2 3 4 5 6 7 8 9 10 11 12 13 14 15);
        }
        for (word, add) in state.iter_mut().zip(v) {
            *word = word.wrapping_add(add);
        }
    }
}

/// One round. Its letters move one place down the words, so that none is copied.
#[inline(always)]
fn round(v: &mut [u32; 8], i: usize, word: u32) {
    let at = |letter: usize| (letter + 8 - i % 8) % 8;
    let (a, b, c) = (v[at(0)], v[at(1)], v[at(2)]);
    let (e, f, g) = (v[at(4)], v[at(5)], v[at(6)]);
    let first = v[at(7)]
        .wrapping_add(big_sigma1(e))
        .wrapping_add(g ^ (e & (f ^ g)))
        .wrapping_add(word);
    let majority = b ^ ((a ^ b) & (b ^ c));
    v[at(3)] = v[at(3)].wrapping_add(first);
    v[at(7)] = first.wrapping_add(big_sigma0(a)).wrapping_add(majority);
}

// Nested rotations take fewer copies of `x`.

#[inline(always)]
fn big_sigma0(x: u32) -> u32 {
    (x ^ (x ^ x.rotate_right(9)).rotate_right(11)).rotate_right(2)
}

#[inline(always)]
fn big_sigma1(x: u32) -> u32 {
    (x ^ (x ^ x.rotate_right(14)).rotate_right(5)).rotate_right(6)
}

#[inline(always)]
fn small_sigma0(x: u32) -> u32 {
    (x ^ x.rotate_right(11)).rotate_right(7) ^ (x >> 3)
}

#[inline(always)]
fn small_sigma1(x: u32) -> u32 {
    (x ^ x.rotate_right(2)).rotate_right(17) ^ (x >> 10)
}

#[cfg(test)]
mod tests {
    use super::sha256;

    fn hexadecimal(message: &[u8]) -> String {
        sha256(message)
            .iter()
            .map(|byte| format!("{byte:02x}"))
            .collect()
    }

    #[test]
    fn digests_of_the_standard() {
        assert_eq!(
            hexadecimal(b""),
            "e3b0c44298fc1c149afbf4c8996fb92427ae41e4649b934ca495991b7852b855"
        );
        assert_eq!(
            hexadecimal(b"abc"),
            "ba7816bf8f01cfea414140de5dae2223b00361a396177a9cb410ff61f20015ad"
        );
        assert_eq!(
            hexadecimal(&[b'a'; 1_000_000]),
            "cdc76e5c9914fb9281a1c7e284d73e67f1809a48a497200e046d39ccc7112cd0"
        );
    }
}
