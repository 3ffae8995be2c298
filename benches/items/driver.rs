//! Runs each loop over items as proved and as written here, in turns, and prints the least time of each.

use std::hint::black_box;
use std::time::Instant;

macro_rules! proved {
    ($name:ident($($slice:expr),*; $($number:expr),*)) => {
        unsafe { $name($($slice.as_ptr(), $slice.len(),)* $($number),*) }
    };
}

type Bytes = *const u8;

#[link(name = "items_bench")]
unsafe extern "C" {
    fn items_sum_u16(bytes: Bytes, len: usize) -> u64;
    fn items_sum_u16_apart(bytes: Bytes, len: usize, stride: usize) -> u64;
    fn items_sum_vectors(bytes: Bytes, len: usize) -> u64;
    fn items_sum_vectors_apart(bytes: Bytes, len: usize, stride: usize) -> u64;
    fn items_sparse_sum(
        base: Bytes,
        base_len: usize,
        indices: Bytes,
        indices_len: usize,
        values: Bytes,
        values_len: usize,
        stride: usize,
    ) -> u64;
    fn items_sparse_nth(
        base: Bytes,
        base_len: usize,
        indices: Bytes,
        indices_len: usize,
        values: Bytes,
        values_len: usize,
        stride: usize,
        n: usize,
        times: usize,
    ) -> u64;
    fn items_sparse_nth_by_next(
        base: Bytes,
        base_len: usize,
        indices: Bytes,
        indices_len: usize,
        values: Bytes,
        values_len: usize,
        stride: usize,
        n: usize,
        times: usize,
    ) -> u64;
}

fn u16_of(item: &[u8]) -> u64 {
    u64::from(u16::from_le_bytes([item[0], item[1]]))
}

fn u32_of(item: &[u8]) -> u32 {
    u32::from_le_bytes([item[0], item[1], item[2], item[3]])
}

fn vector_sum(item: &[u8]) -> u64 {
    item[..12]
        .chunks_exact(4)
        .map(|number| u64::from(u32_of(number)))
        .fold(0, u64::wrapping_add)
}

#[inline(never)]
fn sum_u16(bytes: &[u8]) -> u64 {
    bytes.chunks_exact(2).map(u16_of).fold(0, u64::wrapping_add)
}

#[inline(never)]
fn sum_u16_apart(bytes: &[u8], stride: usize) -> u64 {
    bytes
        .chunks_exact(stride)
        .map(u16_of)
        .fold(0, u64::wrapping_add)
}

#[inline(never)]
fn sum_vectors(bytes: &[u8]) -> u64 {
    bytes
        .chunks_exact(12)
        .map(vector_sum)
        .fold(0, u64::wrapping_add)
}

#[inline(never)]
fn sum_vectors_apart(bytes: &[u8], stride: usize) -> u64 {
    bytes
        .chunks_exact(stride)
        .map(vector_sum)
        .fold(0, u64::wrapping_add)
}

/// Numbers of four bytes at the steps of a stride.
struct Items<'a> {
    bytes: &'a [u8],
    stride: usize,
}

impl Iterator for Items<'_> {
    type Item = u32;

    fn next(&mut self) -> Option<u32> {
        let step = if self.bytes.len() >= self.stride {
            self.stride
        } else if self.bytes.len() >= 4 {
            4
        } else {
            return None;
        };
        let (item, behind) = self.bytes.split_at(step);
        self.bytes = behind;
        Some(u32_of(item))
    }
}

/// The walk that looks at the next stored index, and takes the next value where it is that of the item.
struct Sparse<'a> {
    base: Option<Items<'a>>,
    base_count: usize,
    indices: std::iter::Peekable<Items<'a>>,
    values: Items<'a>,
    counter: u32,
}

impl Iterator for Sparse<'_> {
    type Item = u32;

    fn next(&mut self) -> Option<u32> {
        let mut item = match &mut self.base {
            Some(base) => base.next()?,
            None if (self.counter as usize) < self.base_count => 0,
            None => return None,
        };
        if self.indices.peek() == Some(&self.counter) {
            self.indices.next();
            item = self.values.next().unwrap();
        }
        self.counter += 1;
        Some(item)
    }
}

#[inline(never)]
fn sparse_sum(base: &[u8], indices: &[u8], values: &[u8], stride: usize) -> u64 {
    let items = Sparse {
        base: Some(Items {
            bytes: base,
            stride,
        }),
        base_count: 0,
        indices: Items {
            bytes: indices,
            stride,
        }
        .peekable(),
        values: Items {
            bytes: values,
            stride,
        },
        counter: 0,
    };
    items.map(u64::from).fold(0, u64::wrapping_add)
}

/// The least time of each of two loops that take turns, in milliseconds.
fn least(runs: usize, mut left: impl FnMut() -> u64, mut right: impl FnMut() -> u64) -> (f64, f64) {
    let mut times = (f64::MAX, f64::MAX);
    for _ in 0..runs {
        let start = Instant::now();
        let a = black_box(left());
        times.0 = times.0.min(start.elapsed().as_secs_f64() * 1e3);
        let start = Instant::now();
        let b = black_box(right());
        times.1 = times.1.min(start.elapsed().as_secs_f64() * 1e3);
        assert_eq!(a, b, "the two loops differ");
    }
    times
}

/// Prints a row, and says whether the ratio is within its bound.
fn row(name: &str, bound: f64, (proved, rust): (f64, f64)) -> bool {
    let within = proved <= bound * rust;
    let note = if within { "" } else { "  missed" };
    println!(
        "{name:<50} {proved:9.3} ms {rust:9.3} ms   {:6.3} of at most {bound}{note}",
        proved / rust
    );
    within
}

fn noise(len: usize) -> Vec<u8> {
    let mut state = 1u32;
    let mut next = || {
        state = state.wrapping_mul(1664525).wrapping_add(1013904223);
        (state >> 24) as u8
    };
    (0..len).map(|_| next()).collect()
}

fn main() {
    const COUNT: usize = 10_000_000;
    let (close, apart) = (noise(2 * COUNT), noise(4 * COUNT));
    let mut all = true;
    println!("{:<50} {:>12} {:>12}    ratio", "", "proved", "Rust");
    all &= row(
        "sum of 10 million u16",
        1.15,
        least(40, || proved!(items_sum_u16(close;)), || sum_u16(&close)),
    );
    all &= row(
        "sum of 10 million u16, stride 4 known at run time",
        1.15,
        least(
            40,
            || proved!(items_sum_u16_apart(apart; black_box(4))),
            || sum_u16_apart(&apart, black_box(4)),
        ),
    );
    let (close, apart) = (noise(12 * COUNT), noise(16 * COUNT));
    all &= row(
        "sum of 10 million [F32; 3]",
        1.15,
        least(
            40,
            || proved!(items_sum_vectors(close;)),
            || sum_vectors(&close),
        ),
    );
    all &= row(
        "sum of 10 million [F32; 3], stride 16 at run time",
        1.15,
        least(
            40,
            || proved!(items_sum_vectors_apart(apart; black_box(16))),
            || sum_vectors_apart(&apart, black_box(16)),
        ),
    );
    let (base, values) = (noise(4 * 1_000_000), noise(4 * 100_000));
    let spread: Vec<u8> = (0..100_000u32)
        .flat_map(|k| (10 * k + k * k % 10).to_le_bytes())
        .collect();
    let dense: Vec<u8> = (0..100_000u32).flat_map(u32::to_le_bytes).collect();
    for (name, indices) in [
        ("walk of 1 million items, 100,000 spread overrides", &spread),
        (
            "walk of 1 million items, the first 100,000 replaced",
            &dense,
        ),
    ] {
        all &= row(
            name,
            1.1,
            least(
                200,
                || proved!(items_sparse_sum(base, indices, values; black_box(4))),
                || sparse_sum(&base, indices, &values, black_box(4)),
            ),
        );
    }
    // The making is a part of both sums, so it is taken away.
    let n = black_box(999_990);
    let (jumps, walks) = (100_000, 20);
    let (making, _) = least(
        20,
        || proved!(items_sparse_nth(base, spread, values; 4, n, 0)),
        || 0,
    );
    let (jumped, _) = least(
        20,
        || proved!(items_sparse_nth(base, spread, values; 4, n, jumps)),
        || jumped_sum(&base, &spread, &values, n, jumps),
    );
    let (walked, _) = least(
        20,
        || proved!(items_sparse_nth_by_next(base, spread, values; 4, n, walks)),
        || jumped_sum(&base, &spread, &values, n, walks),
    );
    let jump = (jumped - making) / jumps as f64;
    let walk = (walked - making) / walks as f64;
    let faster = walk / jump;
    println!(
        "nth(999,990) among 100,000 overrides: {:.1} ns; by repeated next: {:.1} ns; {faster:.0} times faster, of at least 1000",
        jump * 1e6,
        walk * 1e6
    );
    std::process::exit(if all && faster >= 1000.0 { 0 } else { 1 });
}

/// What the jumps should add up to.
fn jumped_sum(base: &[u8], indices: &[u8], values: &[u8], n: usize, times: usize) -> u64 {
    let item = |i: usize| {
        let place = indices
            .chunks_exact(4)
            .position(|index| u32_of(index) as usize == i);
        u64::from(u32_of(match place {
            Some(k) => &values[4 * k..],
            None => &base[4 * i..],
        }))
    };
    let (even, odd) = (item(n), item(n ^ 1));
    even.wrapping_mul(times.div_ceil(2) as u64)
        .wrapping_add(odd.wrapping_mul(times as u64 / 2))
}
