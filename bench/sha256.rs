// Two million chained SHA-256 of 32 bytes, to compare with crates/bench_sha256.
const CONSTANTS: [u32; 64] = [
    0x428a2f98, 0x71374491, 0xb5c0fbcf, 0xe9b5dba5, 0x3956c25b, 0x59f111f1, 0x923f82a4, 0xab1c5ed5,
    0xd807aa98, 0x12835b01, 0x243185be, 0x550c7dc3, 0x72be5d74, 0x80deb1fe, 0x9bdc06a7, 0xc19bf174,
    0xe49b69c1, 0xefbe4786, 0x0fc19dc6, 0x240ca1cc, 0x2de92c6f, 0x4a7484aa, 0x5cb0a9dc, 0x76f988da,
    0x983e5152, 0xa831c66d, 0xb00327c8, 0xbf597fc7, 0xc6e00bf3, 0xd5a79147, 0x06ca6351, 0x14292967,
    0x27b70a85, 0x2e1b2138, 0x4d2c6dfc, 0x53380d13, 0x650a7354, 0x766a0abb, 0x81c2c92e, 0x92722c85,
    0xa2bfe8a1, 0xa81a664b, 0xc24b8b70, 0xc76c51a3, 0xd192e819, 0xd6990624, 0xf40e3585, 0x106aa070,
    0x19a4c116, 0x1e376c08, 0x2748774c, 0x34b0bcb5, 0x391c0cb3, 0x4ed8aa4a, 0x5b9cca4f, 0x682e6ff3,
    0x748f82ee, 0x78a5636f, 0x84c87814, 0x8cc70208, 0x90befffa, 0xa4506ceb, 0xbef9a3f7, 0xc67178f2,
];

const INITIAL: [u32; 8] = [
    0x6a09e667, 0xbb67ae85, 0x3c6ef372, 0xa54ff53a, 0x510e527f, 0x9b05688c, 0x1f83d9ab, 0x5be0cd19,
];

#[derive(Clone, Copy)]
struct Hasher {
    state: [u32; 8],
    block: [u8; 64],
    total: u64,
}

fn choose(x: u32, y: u32, z: u32) -> u32 {
    (x & y) ^ (!x & z)
}

fn majority(x: u32, y: u32, z: u32) -> u32 {
    (x & y) ^ (x & z) ^ (y & z)
}

fn big_sigma0(x: u32) -> u32 {
    x.rotate_right(2) ^ x.rotate_right(13) ^ x.rotate_right(22)
}

fn big_sigma1(x: u32) -> u32 {
    x.rotate_right(6) ^ x.rotate_right(11) ^ x.rotate_right(25)
}

fn small_sigma0(x: u32) -> u32 {
    x.rotate_right(7) ^ x.rotate_right(18) ^ (x >> 3)
}

fn small_sigma1(x: u32) -> u32 {
    x.rotate_right(17) ^ x.rotate_right(19) ^ (x >> 10)
}

fn turned(s: [u32; 8], k: u32, w: u32) -> [u32; 8] {
    let t1 = s[7].wrapping_add(big_sigma1(s[4])).wrapping_add(choose(s[4], s[5], s[6])).wrapping_add(k).wrapping_add(w);
    let t2 = big_sigma0(s[0]).wrapping_add(majority(s[0], s[1], s[2]));
    [t1.wrapping_add(t2), s[0], s[1], s[2], s[3].wrapping_add(t1), s[4], s[5], s[6]]
}

fn own_round(s: [u32; 8], block: &[u8; 64], w: &mut [u32; 64], t: usize) -> [u32; 8] {
    w[t] = u32::from_be_bytes([block[4 * t], block[4 * t + 1], block[4 * t + 2], block[4 * t + 3]]);
    turned(s, CONSTANTS[t], w[t])
}

fn mixed_round(s: [u32; 8], w: &mut [u32; 64], t: usize) -> [u32; 8] {
    w[t] = small_sigma1(w[t - 2]).wrapping_add(w[t - 7]).wrapping_add(small_sigma0(w[t - 15])).wrapping_add(w[t - 16]);
    turned(s, CONSTANTS[t], w[t])
}

fn eight_own<const T: usize>(s: [u32; 8], block: &[u8; 64], w: &mut [u32; 64]) -> [u32; 8] {
    let s1 = own_round(s, block, w, T);
    let s2 = own_round(s1, block, w, T + 1);
    let s3 = own_round(s2, block, w, T + 2);
    let s4 = own_round(s3, block, w, T + 3);
    let s5 = own_round(s4, block, w, T + 4);
    let s6 = own_round(s5, block, w, T + 5);
    let s7 = own_round(s6, block, w, T + 6);
    own_round(s7, block, w, T + 7)
}

fn eight_mixed<const T: usize>(s: [u32; 8], w: &mut [u32; 64]) -> [u32; 8] {
    let s1 = mixed_round(s, w, T);
    let s2 = mixed_round(s1, w, T + 1);
    let s3 = mixed_round(s2, w, T + 2);
    let s4 = mixed_round(s3, w, T + 3);
    let s5 = mixed_round(s4, w, T + 4);
    let s6 = mixed_round(s5, w, T + 5);
    let s7 = mixed_round(s6, w, T + 6);
    mixed_round(s7, w, T + 7)
}

fn compress(value: [u32; 8], block: &[u8; 64]) -> [u32; 8] {
    let mut w = [0; 64];
    let s1 = eight_own::<0>(value, block, &mut w);
    let s2 = eight_own::<8>(s1, block, &mut w);
    let s3 = eight_mixed::<16>(s2, &mut w);
    let s4 = eight_mixed::<24>(s3, &mut w);
    let s5 = eight_mixed::<32>(s4, &mut w);
    let s6 = eight_mixed::<40>(s5, &mut w);
    let s7 = eight_mixed::<48>(s6, &mut w);
    let s8 = eight_mixed::<56>(s7, &mut w);
    std::array::from_fn(|i| value[i].wrapping_add(s8[i]))
}

impl Hasher {
    fn new() -> Hasher {
        Hasher { state: INITIAL, block: [0; 64], total: 0 }
    }

    fn absorb(&mut self, mut bytes: &[u8]) {
        while !bytes.is_empty() {
            let filled = (self.total % 64) as usize;
            let count = bytes.len().min(64 - filled);
            self.block[filled..filled + count].copy_from_slice(&bytes[..count]);
            self.total = self.total.wrapping_add(count as u64);
            if filled + count == 64 {
                self.state = compress(self.state, &self.block);
            }
            bytes = &bytes[count..];
        }
    }

    fn digest(&self) -> [u8; 32] {
        let mut mark = [0; 64];
        mark[0] = 0x80;
        let mut ended = *self;
        ended.absorb(&mark[..1 + (119 - (self.total % 64) as usize) % 64]);
        ended.absorb(&(self.total << 3).to_be_bytes());
        let mut out = [0; 32];
        for (four, x) in out.chunks_exact_mut(4).zip(ended.state) {
            four.copy_from_slice(&x.to_be_bytes());
        }
        out
    }
}

fn sha256(message: &[u8]) -> [u8; 32] {
    let mut hasher = Hasher::new();
    hasher.absorb(message);
    hasher.digest()
}

fn main() {
    let mut value = [0; 32];
    for _ in 0..2_000_000 {
        value = sha256(&value);
    }
    println!("{} {} {} {}", value[0], value[1], value[2], value[3]);
}
