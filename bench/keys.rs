//! Keys to time maps with: any, or chosen so that they share a bucket of the proved map, which hashes with no seed.

use std::collections::BTreeSet;

const BUCKETS: u64 = 65_536;

// The bucket that keys are chosen for: of all buckets the one that most keys of 4 bytes have, 65,546.
const BUCKET: u64 = 62_324;

const FIRST: u64 = 0x9e37_79b9_7f4a_7c15;
const FACTOR: u64 = 0xff51_afd7_ed55_8ccd;

// The hash of crates/keyindex.
fn mixed(hash: u64, word: u64) -> u64 {
    let product = (hash ^ word).wrapping_mul(FACTOR);
    product ^ (product >> 32)
}

fn bucket(hash: u64) -> u64 {
    (hash >> 32) * BUCKETS >> 32
}

/// Numbers that look random, the same in each run.
pub struct Random(pub u64);

impl Random {
    pub fn number(&mut self) -> u64 {
        self.0 ^= self.0 << 13;
        self.0 ^= self.0 >> 7;
        self.0 ^= self.0 << 17;
        self.0.wrapping_mul(0x2545_f491_4f6c_dd1d)
    }

    fn byte(&mut self) -> u8 {
        (self.number() >> 33) as u8
    }

    fn below(&mut self, end: usize) -> usize {
        (self.number() % end as u64) as usize
    }

    fn shuffle(&mut self, keys: &mut [Vec<u8>]) {
        for i in (1..keys.len()).rev() {
            keys.swap(i, self.below(i + 1));
        }
    }
}

/// Keys of a size, all different.
pub struct Keys {
    size: usize,
    keys: Vec<Vec<u8>>,
}

/// The keys that a map is filled with, then keys of these that are asked for, then keys that are missing; as bytes, one after another.
pub struct Asked {
    pub size: usize,
    pub fill: usize,
    pub hits: usize,
    pub misses: usize,
    pub bytes: Vec<u8>,
}

impl Asked {
    pub fn arrays<const N: usize>(&self) -> Vec<[u8; N]> {
        self.bytes.chunks_exact(N).map(|key| key.try_into().expect("the size")).collect()
    }
}

impl Keys {
    /// So many keys that nobody chose.
    pub fn any(size: usize, count: usize, random: &mut Random) -> Keys {
        let mut seen = BTreeSet::new();
        let mut keys = Vec::new();
        while keys.len() < count {
            let key: Vec<u8> = (0..size).map(|_| random.byte()).collect();
            if seen.insert(key.clone()) {
                keys.push(key);
            }
        }
        Keys { size, keys }
    }

    /// So many keys of 4 or of 64 bytes that share a bucket, or as many as there are.
    pub fn of_one_bucket(size: usize, count: usize, random: &mut Random) -> Keys {
        let mut keys = if size == 4 { short_keys() } else { (0..count).map(|_| long_key(&[], random)).collect() };
        random.shuffle(&mut keys);
        keys.truncate(count);
        Keys { size, keys }
    }

    /// How many there are.
    pub fn len(&self) -> usize {
        self.keys.len()
    }

    /// Keys that share a bucket, each of which agrees with the later ones on one bit more: the longest way that could be found.
    pub fn on_one_path(size: usize, random: &mut Random) -> Keys {
        let mut found = short_keys();
        random.shuffle(&mut found);
        let mut keys = Vec::new();
        for depth in 0..8 * size {
            let key = if size == 4 { found.iter().find(|key| leaves_at(key, depth)).cloned() } else { searched(depth, random) };
            keys.extend(key);
        }
        Keys { size, keys }
    }

    /// The first so many are put in, and asked for in another order; the last so many are missing.
    pub fn asked(&self, fill: usize, misses: usize, random: &mut Random) -> Asked {
        let put = &self.keys[..fill];
        let mut hits = put.to_vec();
        random.shuffle(&mut hits);
        let missing = &self.keys[self.keys.len() - misses..];
        self.laid_out(put, &hits, missing)
    }

    /// All but the last are put in; the last of these is asked for, and the one that is not there.
    pub fn deepest(&self) -> Asked {
        let (missing, put) = self.keys.split_last().expect("keys");
        self.laid_out(put, &put[put.len() - 1..], std::slice::from_ref(missing))
    }

    fn laid_out(&self, put: &[Vec<u8>], hits: &[Vec<u8>], missing: &[Vec<u8>]) -> Asked {
        let bytes = [put, hits, missing].concat().concat();
        Asked { size: self.size, fill: put.len(), hits: hits.len(), misses: missing.len(), bytes }
    }
}

// All keys of 4 bytes of the bucket.
fn short_keys() -> Vec<Vec<u8>> {
    let of_bucket = |number: &u32| bucket(mixed(FIRST, u64::from(*number))) == BUCKET;
    (0..=u32::MAX).filter(of_bucket).map(|number| number.to_le_bytes().to_vec()).collect()
}

// A key of 64 bytes of the bucket that begins so: of the rest all is random but the last word, which is the one that leads there.
fn long_key(begins: &[u8], random: &mut Random) -> Vec<u8> {
    let mut key = begins.to_vec();
    key.extend((begins.len()..56).map(|_| random.byte()));
    let product = BUCKET << 48 | random.number() >> 16;
    key.extend((product.wrapping_mul(inverse(FACTOR)) ^ hash_of_words(&key)).to_le_bytes());
    key
}

fn hash_of_words(bytes: &[u8]) -> u64 {
    bytes.chunks_exact(8).fold(FIRST, |hash, word| mixed(hash, u64::from_le_bytes(word.try_into().expect("eight bytes"))))
}

// The inverse of an odd number modulo 2^64: each step doubles the bits that are right.
fn inverse(odd: u64) -> u64 {
    (0..6).fold(odd, |x, _| x.wrapping_mul(2u64.wrapping_sub(odd.wrapping_mul(x))))
}

// Whether the first so many bits of a key are ones, and the next is a zero.
fn leaves_at(key: &[u8], depth: usize) -> bool {
    let bit = |i: usize| key[i / 8] >> (i % 8) & 1;
    (0..depth).all(|i| bit(i) == 1) && bit(depth) == 0
}

// A key of 64 bytes of the bucket that leaves the path there, if one is found.
fn searched(depth: usize, random: &mut Random) -> Option<Vec<u8>> {
    if depth < 448 {
        return Some(long_key(&leaving_at(depth, random)[..56], random));
    }
    (0..1_000_000).map(|_| leaving_at(depth, random)).find(|key| bucket(hash_of_words(key)) == BUCKET)
}

// Sixty-four bytes: so many bits are ones, the next is a zero, and the others are random.
fn leaving_at(depth: usize, random: &mut Random) -> Vec<u8> {
    let mut key: Vec<u8> = (0..64).map(|_| random.byte()).collect();
    key[..depth / 8].fill(0xff);
    let low = 1 << (depth % 8);
    key[depth / 8] = (key[depth / 8] | (low - 1)) & !low;
    key
}
