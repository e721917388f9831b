//! The same job by a Rust program in 16 bits, shaped for the vector unit of plain x86-64, in stable Rust without intrinsics. It is right for the
//! house's weights and for strips of up to 64 bytes only, which is where its speed comes from:
//!
//! - Costs are 16 bits, signed, and a sum stops at the top, so that closed stays closed without a test: 512 stages of at most 56 stay below.
//! - A state is numbered with its newest digit worth most: after state i come i / 2 and, for the digit 1, half of the states more. So the states
//!   2 k and 2 k + 1 are made from k and k + half: whole registers are read, and two are woven into each other. Compilers differ in what they weave
//!   well, so a stage is written in three forms, and the harness takes the fastest.
//! - The words of the states 2 k and 2 k + 1 are each other's complement, so one row of prices serves both. There is a constant row for each pair of
//!   levels and label.
//! - The weights are multiples of 4: the two lowest bits of a cost say whether the last two stages raised their first cell. That decides ties, and it is
//!   all that the way forward needs.
//! - The way forward waits for a load at each step, the search does not: a strip is followed while the next one is searched.

mod tried;

use crate::tables::*;

// ---------------------------------------------------------------- tables, made by the compiler

const CLOSED: i16 = i16::MAX;
const STEP: [i16; 4] = [16, 20, 28, CLOSED];

/// What it costs that a cell shows a bit.
const fn price(level: usize, wanted: usize) -> i16 {
    if level % 2 == wanted { 0 } else { STEP[level] }
}

/// A row has, for the half of the states, the prices of the states 2 k at the digit 0; if it is wider, then those of the complements of their words.
/// Its number is the first level, 4 times the second and 16 times the label. `mark` is added where the first cell is raised.
const fn rows<const WIDTH: usize>(taps: Taps, mark: i16) -> [[i16; WIDTH]; 32] {
    let half = 1 << (taps.memory - 1);
    let mut rows = [[0; WIDTH]; 32];
    let mut r = 0;
    while r < 32 {
        let mut k = 0;
        while k < WIDTH {
            let w = window(taps, 2 * (k % half));
            let a = parity(taps.first & w) ^ (k / half);
            let b = parity(taps.second & w) ^ (k / half);
            let marked = if a == r % 2 { 0 } else { mark };
            rows[r][k] = price(r % 4, a).saturating_add(price(r / 4 % 4, b ^ (r / 16))).saturating_add(marked);
            k += 1;
        }
        r += 1;
    }
    rows
}

/// A code, and what it makes of a byte.
struct Code<const STATES: usize> {
    taps: Taps,
    /// Eight labels are the quotient of eight data bits, changed by what the eight labels before leave over.
    quotient: [u8; 256],
    left: [u8; 256],
    /// For each state the first code bit at the digit 0, worth 2, and that of the state after the digit 0.
    bits: [u8; STATES],
}

impl<const STATES: usize> Code<STATES> {
    const fn new(taps: Taps) -> Self {
        let mut code = Code { taps, quotient: [0; 256], left: [0; 256], bits: [0; STATES] };
        let mut x = 0;
        while x < 256 {
            code.quotient[x] = divided(taps.first, x);
            code.left[x] = divided(taps.first, times(taps.first, x) >> 8);
            x += 1;
        }
        let mut s = 0;
        while s < STATES {
            code.bits[s] = (2 * parity(taps.first & window(taps, s)) + parity(taps.first & window(taps, s / 2))) as u8;
            s += 1;
        }
        code
    }
}

/// Starts on a line of the cache, so that no register is loaded from two.
#[derive(Clone, Copy)]
#[repr(align(64))]
struct Aligned<T>(T);

// ---------------------------------------------------------------- strips and pages, for any stage

/// The bits that cells show, each at the lowest bit of its cell; the other bits say nothing.
#[inline(always)]
fn shown(cells: u64) -> u64 {
    cells ^ (cells >> 1) ^ (cells >> 2)
}

/// The row of stage i of eight.
#[inline(always)]
fn row(cells: u64, label: u8, i: usize) -> usize {
    (LEVELS[(cells >> (6 * i)) as usize % 64] + (label >> i) % 2 * 16) as usize % 32
}

/// The labels of a strip's data.
#[inline(always)]
fn divide<const STATES: usize>(code: &Code<STATES>, data: &[u8], labels: &mut [u8]) {
    let mut label = 0u8;
    for (to, &from) in labels.iter_mut().zip(data) {
        label = code.quotient[from as usize] ^ code.left[label as usize];
        *to = label;
    }
}

/// The costs of every second stage of a strip, four in a byte of data.
type History<const STATES: usize> = Aligned<[[[i16; STATES]; 4]; MOST]>;

/// The digits of two stages from a state on: the trail in the costs says which first cells are raised.
#[inline(always)]
fn two_digits<const STATES: usize>(code: &Code<STATES>, shown: u64, costs: &[i16; STATES], state: usize) -> usize {
    let bits = (shown % 2 * 2 + (shown >> 6) % 2) as usize ^ code.bits[state] as usize;
    let x = (costs[state] as usize ^ bits) % 4;
    x / 2 + (x ^ (x / 2)) % 2 * 2
}

/// Raises the cells of a strip that do not show what the digits want.
#[inline(always)]
fn carry(taps: Taps, strip: &mut [u8], labels: &[u8], digits: &[u8]) {
    let mut before = 0;
    for q in 0..digits.len() {
        let w = before + 256 * digits[q] as usize;
        let a = (times(taps.first, w) >> 8) & 255;
        let b = ((times(taps.second, w) >> 8) & 255) ^ labels[q] as usize;
        before = digits[q] as usize;
        let cells = six(strip, q);
        let raise = (shown(cells) & LOWS) ^ (SPREAD[a] + 8 * SPREAD[b]);
        strip[6 * q..6 * q + 6].copy_from_slice(&raised(cells, raise, q).to_le_bytes()[..6]);
    }
}

/// Two stages back: the costs before them from those after them, by the rows of the earlier stage and the later. A method, not a closure, so
/// that it can be bound to be compiled into its loop, where the costs stay in registers.
trait Back<const STATES: usize> {
    fn back(costs: &mut [i16; STATES], earlier: usize, later: usize);
}

/// Prices a page.
#[inline(always)]
fn price_page<B: Back<STATES>, const STATES: usize>(code: &Code<STATES>, bytes: usize, page: &[u8], data: &[u8]) -> u64 {
    let mut labels = [0; MOST];
    let labels = &mut labels[..bytes];
    let mut total = 0;
    for (k, (strip, part)) in page.chunks_exact(6 * bytes).zip(data.chunks_exact(bytes)).enumerate() {
        divide(code, part, labels);
        let mut costs = [0; STATES];
        for q in (0..bytes).rev() {
            let (cells, label) = (six(strip, q), labels[q]);
            for j in (0..4).rev() {
                B::back(&mut costs, row(cells, label, 2 * j), row(cells, label, 2 * j + 1));
            }
        }
        if costs[0] == CLOSED {
            return spent(k);
        }
        total += costs[0] as u64;
    }
    total
}

/// Writes a page; going back leaves the trail of the two stages in the lowest bits.
#[inline(always)]
fn write_page<B: Back<STATES>, const STATES: usize>(code: &Code<STATES>, bytes: usize, page: &mut [u8], data: &[u8]) -> u64 {
    let strips = page.len() / (6 * bytes);
    let mut one: History<STATES> = Aligned([[[0; STATES]; 4]; MOST]);
    let mut other: History<STATES> = Aligned([[[0; STATES]; 4]; MOST]);
    let (mut history, mut old) = (&mut one, &mut other);
    let mut labels = [[0; MOST]; MOST];
    let mut digits = [[0; MOST]; MOST];
    let mut total = 0;
    // One turn more than there are strips: the turn k searches strip k and follows strip k - 1.
    for k in 0..=strips {
        let (now, past) = (k.min(strips - 1), k.max(1) - 1);
        let strip = &page[6 * bytes * now..6 * bytes * (now + 1)];
        let behind = &page[6 * bytes * past..6 * bytes * (past + 1)];
        divide(code, &data[bytes * now..bytes * (now + 1)], &mut labels[now][..bytes]);
        let mut costs = [0; STATES];
        let mut state = 0;
        for f in 0..bytes {
            let q = bytes - 1 - f;
            let (cells, label) = (six(strip, q), labels[now][q]);
            let bits = shown(six(behind, f));
            let mut byte = 0;
            for j in 0..4 {
                if k < strips {
                    let i = 6 - 2 * j;
                    B::back(&mut costs, row(cells, label, i), row(cells, label, i + 1));
                    history.0[q][3 - j] = costs;
                }
                let two = two_digits(code, bits >> (12 * j), &old.0[f][j], state);
                state = state / 4 + two * (STATES / 4);
                byte += two << (2 * j);
            }
            digits[past][f] = byte as u8;
        }
        if costs[0] | 3 == CLOSED {
            return spent(k);
        }
        if k < strips {
            total += (costs[0] & !3) as u64;
        }
        std::mem::swap(&mut history, &mut old);
    }
    for (k, strip) in page.chunks_exact_mut(6 * bytes).enumerate() {
        carry(code.taps, strip, &labels[k][..bytes], &digits[k][..bytes]);
    }
    total
}

// ---------------------------------------------------------------- the stages of the two codes

mod long {
    use super::*;
    use crate::FORM;
    use std::marker::PhantomData;
    use std::sync::atomic::Ordering::Relaxed;

    type Costs = [i16; 64];
    type Rows = Aligned<[[i16; 64]; 32]>;

    pub(super) static ROWS: Rows = Aligned(rows(LONG, 0));
    pub(super) static EARLIER: Rows = Aligned(rows(LONG, 2));
    pub(super) static LATER: Rows = Aligned(rows(LONG, 1));
    pub(super) static CODE: Code<64> = Code::new(LONG);

    /// The states 2 k and 2 k + 1 from the states k and k + 32.
    #[inline(always)]
    fn pair(x: i16, y: i16, p: i16, q: i16) -> (i16, i16) {
        (x.saturating_add(p).min(y.saturating_add(q)), x.saturating_add(q).min(y.saturating_add(p)))
    }

    /// One stage back; of the costs after it the bits in KEPT count.
    pub(super) trait Weave {
        fn stage<const KEPT: i16>(after: &Costs, row: &[i16; 64], before: &mut Costs);
    }

    /// Eight pairs at a time. Registers of a row go in pairs: each has the complements of the other.
    pub(super) struct Blocks;

    impl Weave for Blocks {
        #[inline(always)]
        fn stage<const KEPT: i16>(after: &Costs, row: &[i16; 64], before: &mut Costs) {
            for b in 0..4 {
                let mut even = [0; 8];
                let mut odd = [0; 8];
                for i in 0..8 {
                    let k = 8 * b + i;
                    (even[i], odd[i]) = pair(after[k] & KEPT, after[k + 32] & KEPT, row[k], row[k ^ 8]);
                }
                for i in 0..8 {
                    before[16 * b + 2 * i] = even[i];
                    before[16 * b + 2 * i + 1] = odd[i];
                }
            }
        }
    }

    /// All pairs, then the weaving. A call of its own: compiled into the loops around it, it is woven by more instructions.
    pub(super) struct TwoLoops;

    impl Weave for TwoLoops {
        #[inline(never)]
        fn stage<const KEPT: i16>(after: &Costs, row: &[i16; 64], before: &mut Costs) {
            let mut even = [0; 32];
            let mut odd = [0; 32];
            for k in 0..32 {
                (even[k], odd[k]) = pair(after[k] & KEPT, after[k + 32] & KEPT, row[k], row[k + 32]);
            }
            for k in 0..32 {
                before[2 * k] = even[k];
                before[2 * k + 1] = odd[k];
            }
        }
    }

    /// Each pair where it belongs: four at a time, in half registers.
    pub(super) struct OneLoop;

    impl Weave for OneLoop {
        #[inline(always)]
        fn stage<const KEPT: i16>(after: &Costs, row: &[i16; 64], before: &mut Costs) {
            for k in 0..32 {
                let (even, odd) = pair(after[k] & KEPT, after[k + 32] & KEPT, row[k], row[k + 32]);
                before[2 * k] = even;
                before[2 * k + 1] = odd;
            }
        }
    }

    struct Priced<W>(PhantomData<W>);

    impl<W: Weave> Back<64> for Priced<W> {
        #[inline(always)]
        fn back(costs: &mut Costs, earlier: usize, later: usize) {
            let mut between = Aligned([0; 64]);
            W::stage::<-1>(costs, &ROWS.0[later], &mut between.0);
            W::stage::<-1>(&between.0, &ROWS.0[earlier], costs);
        }
    }

    struct Marked<W>(PhantomData<W>);

    impl<W: Weave> Back<64> for Marked<W> {
        #[inline(always)]
        fn back(costs: &mut Costs, earlier: usize, later: usize) {
            let mut between = Aligned([0; 64]);
            W::stage::<-4>(costs, &LATER.0[later], &mut between.0);
            W::stage::<-1>(&between.0, &EARLIER.0[earlier], costs);
        }
    }

    pub(super) fn price_by<W: Weave>(bytes: usize, page: &[u8], data: &[u8]) -> u64 {
        price_page::<Priced<W>, 64>(&CODE, bytes, page, data)
    }

    pub(super) fn write_by<W: Weave>(bytes: usize, page: &mut [u8], data: &[u8]) -> u64 {
        write_page::<Marked<W>, 64>(&CODE, bytes, page, data)
    }

    pub fn price(bytes: usize, page: &[u8], data: &[u8]) -> u64 {
        match FORM.load(Relaxed) {
            0 => price_by::<Blocks>(bytes, page, data),
            1 => price_by::<TwoLoops>(bytes, page, data),
            _ => price_by::<OneLoop>(bytes, page, data),
        }
    }

    pub fn write(bytes: usize, page: &mut [u8], data: &[u8]) -> u64 {
        match FORM.load(Relaxed) {
            0 => write_by::<Blocks>(bytes, page, data),
            1 => write_by::<TwoLoops>(bytes, page, data),
            _ => write_by::<OneLoop>(bytes, page, data),
        }
    }
}

mod short {
    use super::*;

    static ROWS: Aligned<[[i16; 8]; 32]> = Aligned(woven(0));
    static EARLIER: Aligned<[[i16; 8]; 32]> = Aligned(woven(2));
    static LATER: Aligned<[[i16; 8]; 32]> = Aligned(woven(1));
    static CODE: Code<4> = Code::new(SHORT);

    /// The prices of the four states at the digit 0, and at the digit 1.
    const fn woven(mark: i16) -> [[i16; 8]; 32] {
        let rows: [[i16; 4]; 32] = rows(SHORT, mark);
        let mut woven = [[0; 8]; 32];
        let mut r = 0;
        while r < 32 {
            let [p, q, x, y] = rows[r];
            woven[r] = [p, x, q, y, x, p, y, q];
            r += 1;
        }
        woven
    }

    /// One stage back: the four states are half a register.
    #[inline(always)]
    fn stage<const KEPT: i16>(after: &[i16; 4], row: &[i16; 8], before: &mut [i16; 4]) {
        let x = [after[0], after[0], after[1], after[1]];
        let y = [after[2], after[2], after[3], after[3]];
        for i in 0..4 {
            before[i] = (x[i] & KEPT).saturating_add(row[i]).min((y[i] & KEPT).saturating_add(row[i + 4]));
        }
    }

    struct Priced;

    impl Back<4> for Priced {
        #[inline(always)]
        fn back(costs: &mut [i16; 4], earlier: usize, later: usize) {
            let mut between = [0; 4];
            stage::<-1>(costs, &ROWS.0[later], &mut between);
            stage::<-1>(&between, &ROWS.0[earlier], costs);
        }
    }

    struct Marked;

    impl Back<4> for Marked {
        #[inline(always)]
        fn back(costs: &mut [i16; 4], earlier: usize, later: usize) {
            let mut between = [0; 4];
            stage::<-4>(costs, &LATER.0[later], &mut between);
            stage::<-1>(&between, &EARLIER.0[earlier], costs);
        }
    }

    pub fn price(bytes: usize, page: &[u8], data: &[u8]) -> u64 {
        price_page::<Priced, 4>(&CODE, bytes, page, data)
    }

    pub fn write(bytes: usize, page: &mut [u8], data: &[u8]) -> u64 {
        write_page::<Marked, 4>(&CODE, bytes, page, data)
    }
}

// ---------------------------------------------------------------- the interface for C

/// # Safety
/// The pointers lead to as many bytes as the lengths say.
#[no_mangle]
pub unsafe extern "C" fn narrow_price(code: u32, bytes: u32, _strips: u32, page: *const u8, page_len: usize, data: *const u8, data_len: usize) -> u64 {
    let page = std::slice::from_raw_parts(page, page_len);
    let data = std::slice::from_raw_parts(data, data_len);
    match code {
        3 => short::price(bytes as usize, page, data),
        _ => long::price(bytes as usize, page, data),
    }
}

/// # Safety
/// The pointers lead to as many bytes as the lengths say.
#[no_mangle]
pub unsafe extern "C" fn narrow_write(code: u32, bytes: u32, _strips: u32, page: *mut u8, page_len: usize, data: *const u8, data_len: usize) -> u64 {
    let page = std::slice::from_raw_parts_mut(page, page_len);
    let data = std::slice::from_raw_parts(data, data_len);
    match code {
        3 => short::write(bytes as usize, page, data),
        _ => long::write(bytes as usize, page, data),
    }
}
