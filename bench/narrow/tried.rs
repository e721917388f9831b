//! Other shapes of the long code's search, kept so that the figures in docs/PERFORMANCE.md can be had again. All have 16-bit costs but the last.
use super::long::{self, Blocks, OneLoop, TwoLoops, Weave, CODE, EARLIER, LATER, ROWS};
use super::*;
use std::os::raw::c_char;

/// A shape: its name, and how it prices and writes a page.
struct Shape {
    name: &'static str,
    price: fn(usize, &[u8], &[u8]) -> u64,
    write: fn(usize, &mut [u8], &[u8]) -> u64,
}

/// A name ends in a zero byte, for C.
static SHAPES: [Shape; 8] = [
    Shape {
        name: "a trail of two stages, followed while the next strip is searched; woven in blocks\0",
        price: long::price_by::<Blocks>,
        write: long::write_by::<Blocks>,
    },
    Shape { name: "the same, woven in a second loop\0", price: long::price_by::<TwoLoops>, write: long::write_by::<TwoLoops> },
    Shape { name: "the same, woven in the one loop\0", price: long::price_by::<OneLoop>, write: long::write_by::<OneLoop> },
    Shape { name: "in blocks, each strip followed after its search\0", price: long::price_by::<Blocks>, write: apart_write },
    Shape { name: "in blocks, four strips followed together\0", price: long::price_by::<Blocks>, write: four_write },
    Shape { name: "in a second loop, the costs of every stage kept and compared on the way forward\0", price: kept_price, write: kept_write },
    Shape { name: "states in the paper's order, the costs of every stage kept and compared\0", price: paper_price, write: paper_write },
    Shape { name: "8-bit costs, kept and compared; the first shape where a cell of the page is full\0", price: eight_price, write: eight_write },
];

// ---------------------------------------------------------------- pages

/// Prices a page by a function of the strip and its labels.
fn price_by(bytes: usize, page: &[u8], data: &[u8], mut search: impl FnMut(&[u8], &[u8]) -> i16) -> u64 {
    let mut labels = [0; MOST];
    let mut total = 0;
    for (k, (strip, part)) in page.chunks_exact(6 * bytes).zip(data.chunks_exact(bytes)).enumerate() {
        divide(&CODE, part, &mut labels[..bytes]);
        match search(strip, &labels[..bytes]) {
            CLOSED => return spent(k),
            cost => total += cost as u64,
        }
    }
    total
}

/// Writes a page by a function that also finds the digits.
fn write_by(bytes: usize, page: &mut [u8], data: &[u8], mut search: impl FnMut(&[u8], &[u8], &mut [u8]) -> i16) -> u64 {
    let mut digits = [[0; MOST]; MOST];
    let mut k = 0;
    let mut all = [[0; MOST]; MOST];
    let answer = price_by(bytes, page, data, |strip, labels| {
        all[k][..bytes].copy_from_slice(labels);
        k += 1;
        search(strip, labels, &mut digits[k - 1][..bytes])
    });
    if answer >> 32 == 0 {
        for (k, strip) in page.chunks_exact_mut(6 * bytes).enumerate() {
            carry(LONG, strip, &all[k][..bytes], &digits[k][..bytes]);
        }
    }
    answer
}

// ---------------------------------------------------------------- the trail, followed apart

fn search(strip: &[u8], labels: &[u8], history: &mut History<64>) -> i16 {
    let mut costs = [0; 64];
    for q in (0..labels.len()).rev() {
        let (cells, label) = (six(strip, q), labels[q]);
        for j in (0..4).rev() {
            let mut between = [0; 64];
            Blocks::stage::<-4>(&costs, &LATER.0[row(cells, label, 2 * j + 1)], &mut between);
            Blocks::stage::<-1>(&between, &EARLIER.0[row(cells, label, 2 * j)], &mut costs);
            history.0[q][j] = costs;
        }
    }
    if costs[0] | 3 == CLOSED { CLOSED } else { costs[0] & !3 }
}

/// Eight digits from a state on, and the state after them.
#[inline(always)]
fn eight_digits(cells: u64, history: &[[i16; 64]; 4], state: usize) -> (u8, usize) {
    let (bits, mut s, mut byte) = (shown(cells), state, 0);
    for j in 0..4 {
        let two = two_digits(&CODE, bits >> (12 * j), &history[j], s);
        s = s / 4 + two * 16;
        byte += two << (2 * j);
    }
    (byte as u8, s)
}

fn apart_write(bytes: usize, page: &mut [u8], data: &[u8]) -> u64 {
    let mut history: History<64> = Aligned([[[0; 64]; 4]; MOST]);
    write_by(bytes, page, data, |strip, labels, digits| {
        let cost = search(strip, labels, &mut history);
        let mut state = 0;
        for q in 0..labels.len() {
            (digits[q], state) = eight_digits(six(strip, q), &history.0[q], state);
        }
        cost
    })
}

fn four_write(bytes: usize, page: &mut [u8], data: &[u8]) -> u64 {
    let strips = page.len() / (6 * bytes);
    let mut histories: [History<64>; 4] = [Aligned([[[0; 64]; 4]; MOST]); 4];
    let mut labels = [[0; MOST]; MOST];
    let mut digits = [[0; MOST]; MOST];
    let mut total = 0;
    for k in (0..strips).step_by(4) {
        let strip = |k: usize| &page[6 * bytes * k.min(strips - 1)..6 * bytes * (k.min(strips - 1) + 1)];
        for b in k..(k + 4).min(strips) {
            divide(&CODE, &data[bytes * b..bytes * (b + 1)], &mut labels[b][..bytes]);
            match search(strip(b), &labels[b][..bytes], &mut histories[b - k]) {
                CLOSED => return spent(b),
                cost => total += cost as u64,
            }
        }
        let four = [strip(k), strip(k + 1), strip(k + 2), strip(k + 3)];
        let mut states = [0; 4];
        for q in 0..bytes {
            for b in 0..4 {
                (digits[k + b][q], states[b]) = eight_digits(six(four[b], q), &histories[b].0[q], states[b]);
            }
        }
    }
    for (k, strip) in page.chunks_exact_mut(6 * bytes).enumerate() {
        carry(LONG, strip, &labels[k][..bytes], &digits[k][..bytes]);
    }
    total
}

// ---------------------------------------------------------------- every cost kept

/// The digits of a strip from the costs after each stage: `costs(t, s)` is that of state s before stage t, `price(row, s, d)` that of a branch.
/// `after(s, d)` is the state that follows.
#[inline(always)]
fn compare(
    strip: &[u8],
    labels: &[u8],
    digits: &mut [u8],
    costs: impl Fn(usize, usize) -> i32,
    branch: impl Fn(usize, usize, usize) -> i32,
    after: impl Fn(usize, usize) -> usize,
) {
    let mut s = 0;
    for q in 0..labels.len() {
        let cells = six(strip, q);
        let mut byte = 0;
        for i in 0..8 {
            let r = row(cells, labels[q], i);
            // The price of a branch is doubled, and odd where it raises the first cell: so ties fall as they should.
            let zero = 2 * costs(8 * q + i + 1, after(s, 0)) + branch(r, s, 0);
            let one = 2 * costs(8 * q + i + 1, after(s, 1)) + branch(r, s, 1);
            let d = (one < zero) as usize;
            byte |= d << i;
            s = after(s, d);
        }
        digits[q] = byte as u8;
    }
}

/// Doubled prices of all branches, state by state, odd where the first cell is raised. `reversed`: as the peer numbers the states.
const fn branches(reversed: bool) -> [[[i32; 2]; 64]; 32] {
    let mut table = [[[0; 2]; 64]; 32];
    let mut r = 0;
    while r < 32 {
        let mut k = 0;
        while k < 128 {
            let (s, d) = (k / 2, k % 2);
            let w = if reversed { window(LONG, s) } else { 2 * s } + d;
            let (a, b) = (parity(LONG.first & w), parity(LONG.second & w) ^ (r / 16));
            table[r][s][d] = 2 * (price(r % 4, a) as i32 + price(r / 4 % 4, b) as i32) + (a != r % 2) as i32;
            k += 1;
        }
        r += 1;
    }
    table
}

static REVERSED: [[[i32; 2]; 64]; 32] = branches(true);
static PAPER: [[[i32; 2]; 64]; 32] = branches(false);

/// The costs before every stage of a strip.
type Kept<T> = Aligned<[[T; 64]; 8 * MOST + 1]>;

fn keep(strip: &[u8], labels: &[u8], kept: &mut Kept<i16>) -> i16 {
    for q in (0..labels.len()).rev() {
        let (cells, label) = (six(strip, q), labels[q]);
        for i in (0..8).rev() {
            let (before, after) = kept.0.split_at_mut(8 * q + i + 1);
            TwoLoops::stage::<-1>(&after[0], &ROWS.0[row(cells, label, i)], &mut before[8 * q + i]);
        }
    }
    kept.0[0][0]
}

fn kept_price(bytes: usize, page: &[u8], data: &[u8]) -> u64 {
    let mut kept = Aligned([[0; 64]; 8 * MOST + 1]);
    price_by(bytes, page, data, |strip, labels| keep(strip, labels, &mut kept))
}

fn kept_write(bytes: usize, page: &mut [u8], data: &[u8]) -> u64 {
    let mut kept = Aligned([[0; 64]; 8 * MOST + 1]);
    write_by(bytes, page, data, |strip, labels, digits| {
        let cost = keep(strip, labels, &mut kept);
        compare(strip, labels, digits, |t, s| kept.0[t][s] as i32, |r, s, d| REVERSED[r][s][d], |s, d| s / 2 + 32 * d);
        cost
    })
}

/// Prices of the states k below 32 at the digit 0 in the paper's order, and then those of the complements of their words.
static PAPER_ROWS: Aligned<[[i16; 64]; 32]> = Aligned({
    let mut rows = [[0; 64]; 32];
    let mut k = 0;
    while k < 32 * 64 {
        let (r, s, d) = (k / 64, k % 32, k / 32 % 2);
        let (a, b) = (parity(LONG.first & (2 * s)) ^ d, parity(LONG.second & (2 * s)) ^ d);
        rows[r][k % 64] = price(r % 4, a).saturating_add(price(r / 4 % 4, b ^ (r / 16)));
        k += 1;
    }
    rows
});

/// In the paper's order the states k and k + 32 are made from 2 k and 2 k + 1.
fn paper_keep(strip: &[u8], labels: &[u8], kept: &mut Kept<i16>) -> i16 {
    for q in (0..labels.len()).rev() {
        let (cells, label) = (six(strip, q), labels[q]);
        for i in (0..8).rev() {
            let row = &PAPER_ROWS.0[row(cells, label, i)];
            let (before, after) = kept.0.split_at_mut(8 * q + i + 1);
            let (before, after) = (&mut before[8 * q + i], &after[0]);
            for k in 0..32 {
                let (zero, one) = (after[2 * k], after[2 * k + 1]);
                before[k] = zero.saturating_add(row[k]).min(one.saturating_add(row[k + 32]));
                before[k + 32] = zero.saturating_add(row[k + 32]).min(one.saturating_add(row[k]));
            }
        }
    }
    kept.0[0][0]
}

fn paper_price(bytes: usize, page: &[u8], data: &[u8]) -> u64 {
    let mut kept = Aligned([[0; 64]; 8 * MOST + 1]);
    price_by(bytes, page, data, |strip, labels| paper_keep(strip, labels, &mut kept))
}

fn paper_write(bytes: usize, page: &mut [u8], data: &[u8]) -> u64 {
    let mut kept = Aligned([[0; 64]; 8 * MOST + 1]);
    write_by(bytes, page, data, |strip, labels, digits| {
        let cost = paper_keep(strip, labels, &mut kept);
        compare(strip, labels, digits, |t, s| kept.0[t][s] as i32, |r, s, d| PAPER[r][s][d], |s, d| (2 * s + d) % 64);
        cost
    })
}

// ---------------------------------------------------------------- eight bits

/// Prices in quarters. Two states differ by at most 6 * 14, since every state can be reached in six stages; eight stages add at most 8 * 14.
static QUARTERS: Aligned<[[u8; 64]; 32]> = Aligned({
    let wide: [[i16; 64]; 32] = rows(LONG, 0);
    let mut quarters = [[0; 64]; 32];
    let mut k = 0;
    while k < 32 * 64 {
        quarters[k / 64][k % 64] = (wide[k / 64][k % 64] / 4) as u8;
        k += 1;
    }
    quarters
});

/// Whether a cell of the strip is full: then a branch may be closed, and costs may lie apart by more than a byte holds.
fn full(strip: &[u8]) -> bool {
    (0..strip.len() / 6).any(|q| {
        let cells = six(strip, q);
        cells & (cells >> 1) & (cells >> 2) & LOWS != 0
    })
}

#[inline(always)]
fn stage_eight(after: &[u8; 64], row: &[u8; 64], before: &mut [u8; 64]) {
    for b in 0..2 {
        let mut even = [0; 16];
        let mut odd = [0; 16];
        for i in 0..16 {
            let k = 16 * b + i;
            let (p, q) = (row[k], row[k + 32]);
            let (x, y) = (after[k], after[k + 32]);
            even[i] = x.saturating_add(p).min(y.saturating_add(q));
            odd[i] = x.saturating_add(q).min(y.saturating_add(p));
        }
        for i in 0..16 {
            before[32 * b + 2 * i] = even[i];
            before[32 * b + 2 * i + 1] = odd[i];
        }
    }
}

/// Takes the least cost off all, and gives it.
#[inline(always)]
fn settle(costs: &mut [u8; 64]) -> i16 {
    let mut least = [255; 16];
    for part in costs.chunks_exact(16) {
        for k in 0..16 {
            least[k] = part[k].min(least[k]);
        }
    }
    let least = least.iter().fold(255, |x: u8, &y| x.min(y));
    for c in costs {
        *c -= least;
    }
    4 * least as i16
}

/// The rows first, in a loop of their own: together with the stages the weaving is compiled to many masks instead of two instructions.
fn eight_strip(strip: &[u8], labels: &[u8]) -> i16 {
    let mut rows = [0; 8 * MOST];
    for q in 0..labels.len() {
        let cells = six(strip, q);
        for i in 0..8 {
            rows[8 * q + i] = row(cells, labels[q], i) as u8;
        }
    }
    eight_rows(&rows[..8 * labels.len()])
}

#[inline(never)]
fn eight_rows(rows: &[u8]) -> i16 {
    let mut costs = Aligned([0; 64]);
    let mut between = Aligned([0; 64]);
    let mut total = 0;
    for eight in rows.chunks_exact(8).rev() {
        for two in eight.chunks_exact(2).rev() {
            stage_eight(&costs.0, &QUARTERS.0[two[1] as usize % 32], &mut between.0);
            stage_eight(&between.0, &QUARTERS.0[two[0] as usize % 32], &mut costs.0);
        }
        total += settle(&mut costs.0);
    }
    total + 4 * costs.0[0] as i16
}

fn keep_eight(strip: &[u8], labels: &[u8], kept: &mut Kept<u8>) -> i16 {
    let mut total = 0;
    for q in (0..labels.len()).rev() {
        let (cells, label) = (six(strip, q), labels[q]);
        for i in (0..8).rev() {
            let (before, after) = kept.0.split_at_mut(8 * q + i + 1);
            stage_eight(&after[0], &QUARTERS.0[row(cells, label, i)], &mut before[8 * q + i]);
        }
        total += settle(&mut kept.0[8 * q]);
    }
    total + 4 * kept.0[0][0] as i16
}

fn eight_price(bytes: usize, page: &[u8], data: &[u8]) -> u64 {
    if full(page) {
        return long::price_by::<Blocks>(bytes, page, data);
    }
    price_by(bytes, page, data, eight_strip)
}

fn eight_write(bytes: usize, page: &mut [u8], data: &[u8]) -> u64 {
    if full(page) {
        return long::write_by::<Blocks>(bytes, page, data);
    }
    let mut kept = Aligned([[0; 64]; 8 * MOST + 1]);
    write_by(bytes, page, data, |strip, labels, digits| {
        let cost = keep_eight(strip, labels, &mut kept);
        compare(strip, labels, digits, |t, s| 4 * kept.0[t][s] as i32, |r, s, d| REVERSED[r][s][d], |s, d| s / 2 + 32 * d);
        cost
    })
}

// ---------------------------------------------------------------- the interface for C

/// The name of a shape, NULL beyond the last.
#[no_mangle]
pub extern "C" fn tried_name(shape: usize) -> *const c_char {
    SHAPES.get(shape).map_or(std::ptr::null(), |s| s.name.as_ptr().cast())
}

/// # Safety
/// The shape exists; the pointers lead to as many bytes as the lengths say.
#[no_mangle]
pub unsafe extern "C" fn tried_price(shape: usize, bytes: u32, page: *const u8, page_len: usize, data: *const u8, data_len: usize) -> u64 {
    (SHAPES[shape].price)(bytes as usize, std::slice::from_raw_parts(page, page_len), std::slice::from_raw_parts(data, data_len))
}

/// # Safety
/// The shape exists; the pointers lead to as many bytes as the lengths say.
#[no_mangle]
pub unsafe extern "C" fn tried_write(shape: usize, bytes: u32, page: *mut u8, page_len: usize, data: *const u8, data_len: usize) -> u64 {
    (SHAPES[shape].write)(bytes as usize, std::slice::from_raw_parts_mut(page, page_len), std::slice::from_raw_parts(data, data_len))
}
