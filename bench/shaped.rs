//! The same job by a Rust program shaped for the vector unit of plain x86-64, in stable Rust without intrinsics, and for any three weights of a byte, as
//! the library's search is: so costs have 32 bits, and the rows of prices are made from the weights when a page comes.
//!
//! - A state is numbered with its newest digit worth most: after state i come i / 2 and, for the digit 1, half of the states more. So the states
//!   2 k and 2 k + 1 are made from k and k + half: whole registers are read, and two are woven into each other.
//! - The words of a state and of its neighbour are each other's complement, so a row of prices serves both.
//! - The costs before every stage are kept, and the way forward compares them. Closed is so large that no cost reaches it, and so small that 512 stages
//!   of two closed cells fit 32 bits.

use crate::tables::*;
use crate::FORM;
use std::sync::atomic::Ordering::Relaxed;

const CLOSED: i32 = 1 << 19;

/// The house's weights. The compiler does not know them: each call reads them anew.
static HOUSE: [i32; 3] = [16, 20, 28];

/// The word of each even state 2 k at the digit 0, and then the complements: the first code bit, and twice the second.
const fn words<const STATES: usize>(taps: Taps) -> [u8; STATES] {
    let mut words = [0; STATES];
    let mut k = 0;
    while k < STATES {
        let w = window(taps, 2 * (k % (STATES / 2)));
        let word = parity(taps.first & w) + 2 * parity(taps.second & w);
        words[k] = (if k < STATES / 2 { word } else { 3 - word }) as u8;
        k += 1;
    }
    words
}

/// The price of each word in each row: the first level, 4 times the second and 16 times the label.
fn prices(weights: [i32; 3]) -> [[i32; 4]; 32] {
    let step = [weights[0], weights[1], weights[2], CLOSED];
    let price = |level: usize, wanted: usize| if level % 2 == wanted { 0 } else { step[level] };
    let mut table = [[0; 4]; 32];
    for (r, row) in table.iter_mut().enumerate() {
        for (j, p) in row.iter_mut().enumerate() {
            *p = price(r % 4, j % 2) + price(r / 4 % 4, (j / 2) ^ (r / 16));
        }
    }
    table
}

/// The costs of the states 2 k and 2 k + 1, from those of k and k + half, by the prices of the word of state 2 k at the digit 0 and of its complement.
#[inline(always)]
fn pair(x: i32, y: i32, word: i32, complement: i32) -> (i32, i32) {
    ((x + word).min(y + complement), (x + complement).min(y + word))
}

/// Four pairs at a time, woven at once.
const IN_BLOCKS: u8 = 0;
/// All pairs, then the weaving.
const IN_TWO_LOOPS: u8 = 1;
/// Each pair where it belongs.
const IN_ONE_LOOP: u8 = 2;

/// One stage back, in one of the three forms: compilers differ in which one they make best.
#[inline(always)]
fn stage<const STATES: usize, const FORM: u8>(after: &[i32; STATES], row: &[i32; STATES], before: &mut [i32; STATES]) {
    let half = STATES / 2;
    let at = |k: usize| pair(after[k], after[k + half], row[k], row[k + half]);
    match FORM {
        IN_BLOCKS if STATES == 64 => {
            for b in 0..8 {
                let mut even = [0; 4];
                let mut odd = [0; 4];
                for i in 0..4 {
                    (even[i], odd[i]) = at(4 * b + i);
                }
                for i in 0..4 {
                    before[8 * b + 2 * i] = even[i];
                    before[8 * b + 2 * i + 1] = odd[i];
                }
            }
        }
        IN_TWO_LOOPS => {
            let mut even = [0; 32];
            let mut odd = [0; 32];
            for k in 0..half {
                (even[k], odd[k]) = at(k);
            }
            for k in 0..half {
                before[2 * k] = even[k];
                before[2 * k + 1] = odd[k];
            }
        }
        _ => {
            for k in 0..half {
                (before[2 * k], before[2 * k + 1]) = at(k);
            }
        }
    }
}

macro_rules! program {
    ($name:ident, $taps:expr, $states:expr) => {
        mod $name {
            use super::*;

            const STATES: usize = $states;
            const TAPS: Taps = $taps;
            static WORDS: [u8; STATES] = words(TAPS);

            /// The prices of a row by states.
            type Rows = [[i32; STATES]; 32];

            fn rows(table: &[[i32; 4]; 32]) -> Rows {
                let mut rows = [[0; STATES]; 32];
                for (row, prices) in rows.iter_mut().zip(table) {
                    for (p, w) in row.iter_mut().zip(&WORDS) {
                        *p = prices[*w as usize];
                    }
                }
                rows
            }

            /// What is known of a strip before the search: the labels of eight stages, and the row of each stage.
            struct Known {
                labels: [u8; MOST],
                rows: [u8; 8 * MOST],
            }

            fn know(strip: &[u8], data: &[u8], known: &mut Known) {
                let mut label = 0;
                for q in 0..data.len() {
                    label = divided(TAPS.first, data[q] as usize ^ (times(TAPS.first, label) >> 8)) as usize;
                    known.labels[q] = label as u8;
                    let cells = six(strip, q);
                    for i in 0..8 {
                        known.rows[8 * q + i] = LEVELS[(cells >> (6 * i)) as usize % 64] + ((label >> i) % 2 * 16) as u8;
                    }
                }
            }

            fn price_strip<const FORM: u8>(known: &Known, rows: &Rows, bytes: usize) -> i32 {
                let mut costs = [0; STATES];
                for t in (0..8 * bytes).rev() {
                    let after = costs;
                    stage::<STATES, FORM>(&after, &rows[known.rows[t] as usize % 32], &mut costs);
                }
                costs[0]
            }

            fn search_strip<const FORM: u8>(known: &Known, rows: &Rows, bytes: usize, kept: &mut [[i32; STATES]; 8 * MOST + 1]) -> i32 {
                kept[8 * bytes] = [0; STATES];
                for t in (0..8 * bytes).rev() {
                    let after = kept[t + 1];
                    stage::<STATES, FORM>(&after, &rows[known.rows[t] as usize % 32], &mut kept[t]);
                }
                kept[0][0]
            }

            /// The digits of the cheapest way: of two as dear the one whose first code bit is the one that the first cell shows.
            fn follow(known: &Known, table: &[[i32; 4]; 32], bytes: usize, kept: &[[i32; STATES]; 8 * MOST + 1], digits: &mut [u8]) {
                let half = STATES / 2;
                let mut s = 0;
                for q in 0..bytes {
                    let mut byte = 0;
                    for i in 0..8 {
                        let t = 8 * q + i;
                        let row = known.rows[t] as usize % 32;
                        let word = WORDS[s / 2 + (s % 2) * half] as usize;
                        let zero = kept[t + 1][s / 2] + table[row][word];
                        let one = kept[t + 1][s / 2 + half] + table[row][3 - word];
                        let d = usize::from(one < zero || (one == zero && word % 2 != row % 2));
                        s = s / 2 + d * half;
                        byte += d << i;
                    }
                    digits[q] = byte as u8;
                }
            }

            fn carry(strip: &mut [u8], labels: &[u8], digits: &[u8]) {
                let mut before = 0;
                for q in 0..digits.len() {
                    let w = before + 256 * digits[q] as usize;
                    let a = (times(TAPS.first, w) >> 8) & 255;
                    let b = ((times(TAPS.second, w) >> 8) & 255) ^ labels[q] as usize;
                    before = digits[q] as usize;
                    let cells = six(strip, q);
                    let shown = (cells ^ (cells >> 1) ^ (cells >> 2)) & LOWS;
                    let raise = shown ^ (SPREAD[a] + 8 * SPREAD[b]);
                    strip[6 * q..6 * q + 6].copy_from_slice(&raised(cells, raise, q).to_le_bytes()[..6]);
                }
            }

            fn price_page<const FORM: u8>(weights: [i32; 3], bytes: usize, page: &[u8], data: &[u8]) -> u64 {
                let rows = rows(&prices(weights));
                let mut known = Known { labels: [0; MOST], rows: [0; 8 * MOST] };
                let mut total = 0;
                for (k, (strip, part)) in page.chunks_exact(6 * bytes).zip(data.chunks_exact(bytes)).enumerate() {
                    know(strip, part, &mut known);
                    let cost = price_strip::<FORM>(&known, &rows, bytes);
                    if cost >= CLOSED {
                        return spent(k);
                    }
                    total += cost as u64;
                }
                total
            }

            fn write_page<const FORM: u8>(weights: [i32; 3], bytes: usize, page: &mut [u8], data: &[u8]) -> u64 {
                let table = prices(weights);
                let rows = rows(&table);
                let mut known = Known { labels: [0; MOST], rows: [0; 8 * MOST] };
                let mut kept = [[0; STATES]; 8 * MOST + 1];
                let mut digits = [0; MOST * MOST];
                let mut labels = [0; MOST * MOST];
                let mut total = 0;
                for (k, (strip, part)) in page.chunks_exact(6 * bytes).zip(data.chunks_exact(bytes)).enumerate() {
                    know(strip, part, &mut known);
                    let cost = search_strip::<FORM>(&known, &rows, bytes, &mut kept);
                    if cost >= CLOSED {
                        return spent(k);
                    }
                    total += cost as u64;
                    follow(&known, &table, bytes, &kept, &mut digits[bytes * k..bytes * (k + 1)]);
                    labels[bytes * k..bytes * (k + 1)].copy_from_slice(&known.labels[..bytes]);
                }
                for (k, strip) in page.chunks_exact_mut(6 * bytes).enumerate() {
                    carry(strip, &labels[bytes * k..bytes * (k + 1)], &digits[bytes * k..bytes * (k + 1)]);
                }
                total
            }

            pub fn price(weights: [i32; 3], bytes: usize, page: &[u8], data: &[u8]) -> u64 {
                match FORM.load(Relaxed) {
                    0 => price_page::<IN_BLOCKS>(weights, bytes, page, data),
                    1 => price_page::<IN_TWO_LOOPS>(weights, bytes, page, data),
                    _ => price_page::<IN_ONE_LOOP>(weights, bytes, page, data),
                }
            }

            pub fn write(weights: [i32; 3], bytes: usize, page: &mut [u8], data: &[u8]) -> u64 {
                match FORM.load(Relaxed) {
                    0 => write_page::<IN_BLOCKS>(weights, bytes, page, data),
                    1 => write_page::<IN_TWO_LOOPS>(weights, bytes, page, data),
                    _ => write_page::<IN_ONE_LOOP>(weights, bytes, page, data),
                }
            }
        }
    };
}

program!(short, SHORT, 4);
program!(long, LONG, 64);

/// # Safety
/// The pointers lead to as many bytes as the lengths say.
#[no_mangle]
pub unsafe extern "C" fn shaped_price(code: u32, bytes: u32, _strips: u32, page: *const u8, page_len: usize, data: *const u8, data_len: usize) -> u64 {
    let page = std::slice::from_raw_parts(page, page_len);
    let data = std::slice::from_raw_parts(data, data_len);
    let weights = std::ptr::read_volatile(&HOUSE);
    match code {
        3 => short::price(weights, bytes as usize, page, data),
        _ => long::price(weights, bytes as usize, page, data),
    }
}

/// # Safety
/// The pointers lead to as many bytes as the lengths say.
#[no_mangle]
pub unsafe extern "C" fn shaped_write(code: u32, bytes: u32, _strips: u32, page: *mut u8, page_len: usize, data: *const u8, data_len: usize) -> u64 {
    let page = std::slice::from_raw_parts_mut(page, page_len);
    let data = std::slice::from_raw_parts(data, data_len);
    let weights = std::ptr::read_volatile(&HOUSE);
    match code {
        3 => short::write(weights, bytes as usize, page, data),
        _ => long::write(weights, bytes as usize, page, data),
    }
}
