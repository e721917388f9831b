//! An ordinary Rust program for the same job: the same search from the last stage to the first, written to be read, with no thought of the
//! vector unit. It takes inputs that are in order.

/// A cost from which on there is none; two of them still fit.
const CLOSED: u32 = 1 << 30;

/// What a step from each level costs.
const STEP: [u32; 4] = [16, 20, 28, CLOSED];

/// A code of `STATES` states: the two generators as taps, the present stage's digit worth 1.
struct Code<const STATES: usize> {
    first: usize,
    second: usize,
}

const SHORT: Code<4> = Code { first: 0b111, second: 0b101 };
const LONG: Code<64> = Code { first: 0b100_1111, second: 0b110_1101 };

fn parity(x: usize) -> usize {
    x.count_ones() as usize % 2
}

fn bit(bytes: &[u8], k: usize) -> usize {
    (bytes[k / 8] >> (k % 8)) as usize % 2
}

fn level(strip: &[u8], cell: usize) -> usize {
    bit(strip, 3 * cell) + bit(strip, 3 * cell + 1) + bit(strip, 3 * cell + 2)
}

/// Turns a zero bit of a cell into a one: the first, going round from the bit of the cell's number in its strip mod 3.
fn raise(strip: &mut [u8], cell: usize) {
    if let Some(k) = (cell..cell + 3).map(|i| 3 * cell + i % 3).find(|&k| bit(strip, k) == 0) {
        strip[k / 8] |= 1 << (k % 8);
    }
}

/// What it costs that a cell shows a bit.
fn price(level: usize, wanted: usize) -> u32 {
    if level % 2 == wanted { 0 } else { STEP[level] }
}

impl<const STATES: usize> Code<STATES> {
    /// The data divided by the first generator, one label a stage: the second cells must show them where the digits are all 0.
    fn labels(&self, data: &[u8]) -> Vec<usize> {
        let mut register = 0;
        (0..8 * data.len())
            .map(|t| {
                let label = bit(data, t) ^ parity((self.first >> 1) & register);
                register = (2 * register + label) % STATES;
                label
            })
            .collect()
    }

    /// The two code bits of each state for the digit 0; the digit 1 turns both round.
    fn words(&self) -> [(usize, usize); STATES] {
        std::array::from_fn(|s| (parity(self.first & (2 * s)), parity(self.second & (2 * s))))
    }

    /// From the last stage to the first: what the data costs from state 0. `decide` is told, for each stage, which states take the digit 1.
    fn search(&self, strip: &[u8], data: &[u8], mut decide: impl FnMut(usize, [bool; STATES])) -> Option<u32> {
        let labels = self.labels(data);
        let words = self.words();
        let mut after = [0; STATES];
        for t in (0..labels.len()).rev() {
            let (x, y) = (level(strip, 2 * t), level(strip, 2 * t + 1));
            let first = [price(x, 0), price(x, 1)];
            let second = [price(y, labels[t]), price(y, 1 - labels[t])];
            let mut before = [0; STATES];
            let mut takes_one = [false; STATES];
            for s in 0..STATES {
                let (a, b) = words[s];
                let zero = after[2 * s % STATES] + first[a] + second[b];
                let one = after[(2 * s + 1) % STATES] + first[1 - a] + second[1 - b];
                // A tie goes to the digit that leaves the first cell as it is.
                takes_one[s] = if a == x % 2 { one < zero } else { one <= zero };
                before[s] = zero.min(one).min(CLOSED);
            }
            decide(t, takes_one);
            after = before;
        }
        Some(after[0]).filter(|&cost| cost < CLOSED)
    }

    fn price_strip(&self, strip: &[u8], data: &[u8]) -> Option<u32> {
        self.search(strip, data, |_, _| ())
    }

    fn write_strip(&self, strip: &mut [u8], data: &[u8]) -> Option<u32> {
        let mut takes_one = vec![[false; STATES]; 8 * data.len()];
        let cost = self.search(strip, data, |t, decisions| takes_one[t] = decisions)?;
        let labels = self.labels(data);
        let mut state = 0;
        for t in 0..labels.len() {
            let window = 2 * state + takes_one[t][state] as usize;
            if level(strip, 2 * t) % 2 != parity(self.first & window) {
                raise(strip, 2 * t);
            }
            if level(strip, 2 * t + 1) % 2 != parity(self.second & window) ^ labels[t] {
                raise(strip, 2 * t + 1);
            }
            state = window % STATES;
        }
        Some(cost)
    }

    fn price_page(&self, bytes: usize, page: &[u8], data: &[u8]) -> u64 {
        let mut total = 0;
        for (k, (strip, part)) in page.chunks(6 * bytes).zip(data.chunks(bytes)).enumerate() {
            match self.price_strip(strip, part) {
                Some(cost) => total += cost as u64,
                None => return spent(k),
            }
        }
        total
    }

    /// Writes a copy, so that a page that turns out to be spent stays as it is.
    fn write_page(&self, bytes: usize, page: &mut [u8], data: &[u8]) -> u64 {
        let mut written = page.to_vec();
        let mut total = 0;
        for (k, (strip, part)) in written.chunks_mut(6 * bytes).zip(data.chunks(bytes)).enumerate() {
            match self.write_strip(strip, part) {
                Some(cost) => total += cost as u64,
                None => return spent(k),
            }
        }
        page.copy_from_slice(&written);
        total
    }
}

/// The answer of a page that is spent at a strip.
fn spent(strip: usize) -> u64 {
    (7 << 32) + strip as u64
}

/// # Safety
/// The pointers lead to as many bytes as the lengths say.
#[no_mangle]
pub unsafe extern "C" fn ordinary_price(code: u32, bytes: u32, _strips: u32, page: *const u8, page_len: usize, data: *const u8, data_len: usize) -> u64 {
    let page = std::slice::from_raw_parts(page, page_len);
    let data = std::slice::from_raw_parts(data, data_len);
    match code {
        3 => SHORT.price_page(bytes as usize, page, data),
        _ => LONG.price_page(bytes as usize, page, data),
    }
}

/// # Safety
/// The pointers lead to as many bytes as the lengths say.
#[no_mangle]
pub unsafe extern "C" fn ordinary_write(code: u32, bytes: u32, _strips: u32, page: *mut u8, page_len: usize, data: *const u8, data_len: usize) -> u64 {
    let page = std::slice::from_raw_parts_mut(page, page_len);
    let data = std::slice::from_raw_parts(data, data_len);
    match code {
        3 => SHORT.write_page(bytes as usize, page, data),
        _ => LONG.write_page(bytes as usize, page, data),
    }
}
