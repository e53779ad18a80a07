//! The inputs: a small generator of its own, the numbers worth trying, and ways to spoil bytes.

/// Sebastiano Vigna's splitmix64.
pub struct Random(u64);

impl Random {
    pub fn new(seed: u64) -> Self {
        Self(seed)
    }

    pub fn next(&mut self) -> u64 {
        self.0 = self.0.wrapping_add(0x9e37_79b9_7f4a_7c15);
        let mixed = (self.0 ^ (self.0 >> 30)).wrapping_mul(0xbf58_476d_1ce4_e5b9);
        let mixed = (mixed ^ (mixed >> 27)).wrapping_mul(0x94d0_49bb_1331_11eb);
        mixed ^ (mixed >> 31)
    }

    /// A number below `end`, which is not 0.
    pub fn below(&mut self, end: u64) -> u64 {
        ((u128::from(self.next()) * u128::from(end)) >> 64) as u64
    }

    /// A number from `first` to `last`, both included.
    pub fn within(&mut self, first: u64, last: u64) -> u64 {
        match (last - first).checked_add(1) {
            Some(count) => first + self.below(count),
            None => self.next(),
        }
    }

    pub fn index(&mut self, end: usize) -> usize {
        self.below(end as u64) as usize
    }

    pub fn byte(&mut self) -> u8 {
        self.next() as u8
    }
}

/// The most bytes that a number takes.
pub const LONGEST: usize = 10;

/// The first number of each length: `FIRSTS[0]` of one byte, `FIRSTS[9]` of ten.
pub const FIRSTS: [u64; LONGEST] = firsts();

const fn firsts() -> [u64; LONGEST] {
    let mut all = [0; LONGEST];
    all[1] = 240;
    let mut length = 2;
    while length < LONGEST {
        all[length] = all[length - 1] + (1 << (7 * length - 3));
        length += 1;
    }
    all
}

/// A number that takes `length` bytes.
pub fn number_of_length(random: &mut Random, length: usize) -> u64 {
    let last = match FIRSTS.get(length) {
        Some(next) => next - 1,
        None => u64::MAX,
    };
    random.within(FIRSTS[length - 1], last)
}

/// A number of any size, often one beside a boundary.
pub fn number(random: &mut Random) -> u64 {
    match random.below(4) {
        0 => {
            let first = FIRSTS[random.index(LONGEST)];
            near(random, first)
        }
        1 => {
            let power = 1 << random.below(64);
            near(random, power)
        }
        2 => {
            let length = 1 + random.index(LONGEST);
            number_of_length(random, length)
        }
        _ => random.next() >> random.below(64),
    }
}

/// Below 0 this goes on from the largest number, which is a boundary too.
fn near(random: &mut Random, number: u64) -> u64 {
    number.wrapping_add(random.below(9)).wrapping_sub(4)
}

/// Every number beside a boundary, each once, in rising order.
pub fn edges() -> Vec<u64> {
    let powers = (0..64).map(|bit| 1 << bit);
    let mut all: Vec<u64> = FIRSTS
        .into_iter()
        .chain(powers)
        .flat_map(|n| (0..7).map(move |step| n.wrapping_add(step).wrapping_sub(3)))
        .collect();
    all.sort_unstable();
    all.dedup();
    all
}

/// Nine bytes that announce a tenth: cut there, with each tenth byte, and with a byte behind that.
pub fn tenth_bytes() -> Vec<Vec<u8>> {
    const FRONTS: [&[u8; 9]; 4] = [
        b"\xf0\x80\x80\x80\x80\x80\x80\x80\x80",
        b"\xff\xf0\xfe\xfe\xfe\xfe\xfe\xfe\xfe",
        b"\xff\xfe\xfe\xfe\xfe\xfe\xfe\xfe\xfe",
        b"\xf7\xff\xff\xff\xff\xff\xff\xff\xff",
    ];
    const BEHIND: [&[u8]; 4] = [b"", b"\x00", b"\x10", b"\xff"];
    let mut all = FRONTS.map(|front| front.to_vec()).to_vec();
    for (front, tenth) in FRONTS
        .iter()
        .flat_map(|front| (0..=255).map(move |tenth| (*front, tenth)))
    {
        all.extend(BEHIND.map(|behind| [&front[..], &[tenth], behind].concat()));
    }
    all
}

/// Adds a number with a tenth byte. Half have one above 15, at times with bytes behind it; the sum of a quarter is too
/// large.
pub fn long_number(random: &mut Random, bytes: &mut Vec<u8>) {
    let lowest = [0x80, 0x80, 0xfe][random.index(3)];
    bytes.push(240 + random.below(16) as u8);
    bytes.extend((0..8).map(|_| lowest | random.byte()));
    match random.below(4) {
        0 => bytes.push(15),
        1 => bytes.push(random.below(16) as u8),
        2 => bytes.push(random.within(16, 127) as u8),
        _ => {
            bytes.push(random.within(128, 255) as u8);
            bytes.extend((0..random.below(3)).map(|_| random.byte()));
        }
    }
}

/// Adds a well-formed sequence of UTF-8, of any length.
pub fn sequence(random: &mut Random, bytes: &mut Vec<u8>) {
    let scalar = match random.below(4) {
        0 => random.within(0x00, 0x7f),
        1 => random.within(0x80, 0x7ff),
        2 => random.within(0x800, 0xffff),
        _ => random.within(0x1_0000, 0x10_ffff),
    };
    // What lies between D800 and DFFF is no scalar value, and then a mark stands for it.
    let scalar = char::from_u32(scalar as u32).unwrap_or(char::REPLACEMENT_CHARACTER);
    bytes.extend_from_slice(scalar.encode_utf8(&mut [0; 4]).as_bytes());
}

/// Adds one to four bytes.
pub fn append(random: &mut Random, bytes: &mut Vec<u8>) {
    for _ in 0..random.within(1, 4) {
        bytes.push(random.byte());
    }
}

/// Takes away at least the last byte.
pub fn cut(random: &mut Random, bytes: &mut Vec<u8>) {
    let left = random.index(bytes.len());
    bytes.truncate(left);
}

/// Changes one byte to another value.
pub fn damage(random: &mut Random, bytes: &mut [u8]) {
    let place = random.index(bytes.len());
    bytes[place] ^= random.within(1, 255) as u8;
}
