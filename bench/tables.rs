//! What the two programs for the vector unit share: the codes, the levels of cells, products of bits, raises.

/// The most bytes of a strip's data, and the most strips.
pub const MOST: usize = 64;

/// The generators' taps, the present stage's digit worth 1.
#[derive(Clone, Copy)]
pub struct Taps {
    pub memory: usize,
    pub first: usize,
    pub second: usize,
}

pub const SHORT: Taps = Taps { memory: 2, first: 0b111, second: 0b101 };
pub const LONG: Taps = Taps { memory: 6, first: 0b100_1111, second: 0b110_1101 };

pub const fn parity(x: usize) -> usize {
    x.count_ones() as usize % 2
}

/// The last digits of a state, the newest worth 2: the window of its branch with the digit 0.
pub const fn window(taps: Taps, state: usize) -> usize {
    let mut sum = 0;
    let mut i = 0;
    while i < taps.memory {
        sum += ((state >> (taps.memory - 1 - i)) % 2) << (i + 1);
        i += 1;
    }
    sum
}

/// The levels of two cells by their six bits: the first, and 4 times the second.
pub static LEVELS: [u8; 64] = {
    let mut table = [0; 64];
    let mut x: usize = 0;
    while x < 64 {
        table[x] = ((x % 8).count_ones() + 4 * (x / 8).count_ones()) as u8;
        x += 1;
    }
    table
};

/// Eight bits, six places apart.
pub static SPREAD: [u64; 256] = {
    let mut table = [0; 256];
    let mut x = 0;
    while x < 256 {
        let mut i = 0;
        while i < 8 {
            table[x] += ((x as u64 >> i) % 2) << (6 * i);
            i += 1;
        }
        x += 1;
    }
    table
};

/// The product of bits with taps, without carries.
pub const fn times(taps: usize, x: usize) -> usize {
    let mut sum = 0;
    let mut i = 0;
    while i < 7 {
        sum ^= (taps >> i) % 2 * (x << i);
        i += 1;
    }
    sum
}

/// Eight bits divided by taps: the seventh power of g is the inverse of g modulo D^8.
pub const fn divided(taps: usize, x: usize) -> u8 {
    let mut y = x;
    let mut i = 0;
    while i < 7 {
        y = times(taps, y);
        i += 1;
    }
    (y & 255) as u8
}

/// Sixteen cells, the cells of eight stages.
#[inline(always)]
pub fn six(strip: &[u8], q: usize) -> u64 {
    let mut w = [0; 8];
    w[..6].copy_from_slice(&strip[6 * q..6 * q + 6]);
    u64::from_le_bytes(w)
}

/// The lowest bit of each of sixteen cells.
pub const LOWS: u64 = 0o1111_1111_1111_1111;

/// The bit at which a raise starts in each of sixteen cells, by the first one's number in its strip mod 3.
static STARTS: [u64; 3] = {
    let mut table = [0; 3];
    let mut k = 0;
    while k < 48 {
        let (s, j) = (k / 16, k % 16);
        table[s] |= 1 << (3 * j + (s + j) % 3);
        k += 1;
    }
    table
};

/// Each mark on the next bit of its cell, going round the three.
#[inline(always)]
fn turned(marks: u64) -> u64 {
    ((marks << 1) & (6 * LOWS)) | ((marks >> 2) & LOWS)
}

/// The sixteen cells from cell 16 q of a strip on, each raised whose lowest bit is in `raise`. A mark that meets a one goes on to the next bit; the
/// first cell's starts at bit q mod 3, since 15 q is a multiple of 3.
#[inline(always)]
pub fn raised(cells: u64, raise: u64, q: usize) -> u64 {
    let first = (7 * raise) & STARTS[q % 3];
    let second = turned(cells & first);
    let third = turned(cells & second);
    cells | first | second | third
}

/// The answer of a page that is spent at a strip.
pub fn spent(strip: usize) -> u64 {
    (7 << 32) + strip as u64
}
