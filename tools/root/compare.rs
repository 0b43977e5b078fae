// Compares `root` of crate geometry with the machine's square root, bit for bit, and times both.
//
// In the repository's folder, with a crate `export` that has `#[unsafe(no_mangle)] pub extern "C" fn h_root(x: f64) -> f64`:
//
//     bash tools/archive export
//     rustc -O -L target/staticlib -l static=export tools/root/compare.rs -o target/compare-root
//     target/compare-root 4000000
//
// The argument is how many values each kind has (4,000,000 if there is none). A NaN is equal to a NaN, whatever
// its bits. It writes a line for each kind: the values tried, the differences, and the first one. The exit
// status is 1 if there is a difference. Nothing here is part of the gate.
use std::hint::black_box;
use std::time::Instant;

extern "C" {
    fn h_root(x: f64) -> f64;
}

fn root(x: f64) -> f64 {
    unsafe { h_root(x) }
}

#[inline(never)]
fn machine(x: f64) -> f64 {
    x.sqrt()
}

// Marsaglia's xorshift64.
struct Random(u64);

impl Random {
    fn next(&mut self) -> u64 {
        self.0 ^= self.0 << 13;
        self.0 ^= self.0 >> 7;
        self.0 ^= self.0 << 17;
        self.0
    }

    // from 2^52 up to 2^53
    fn digits(&mut self) -> u64 {
        self.next() >> 12 | 1 << 52
    }

    // a pattern with this significand of 53 digits and any normal exponent of the given parity
    fn normal(&mut self, digits: u64, odd: u64) -> u64 {
        let field = (self.next() % 1022 + 1) * 2 - odd;
        field << 52 | digits & ((1 << 52) - 1)
    }
}

// The 53 leading digits of n, which has more, cut; and how many were cut, modulo 2.
fn leading(n: u128) -> (u64, u64) {
    let cut = 128 - n.leading_zeros() - 53;
    ((n >> cut) as u64, cut as u64 % 2)
}

// One value of each kind: a pattern.
fn any(r: &mut Random) -> u64 {
    r.next()
}

fn normals(r: &mut Random) -> u64 {
    let d = r.digits();
    let odd = r.next() % 2;
    r.normal(d, odd)
}

fn subnormals(r: &mut Random) -> u64 {
    let digits = r.next() >> 12;
    digits >> r.next() % 52
}

// as sums of squared edges are, from 0.01 to 100
fn edges(r: &mut Random) -> u64 {
    let part = r.next() as f64 / u64::MAX as f64;
    (0.01f64 * 1e4f64.powf(part)).to_bits()
}

// the square of a number of up to 26 digits, or a neighbour, times a power of 4
fn squares(r: &mut Random) -> u64 {
    let a = (r.next() >> 38) + 1;
    let bits = ((a * a) as f64).to_bits();
    let scaled = bits + (r.next() % 900 << 53) - (450 << 53);
    scaled + r.next() % 5 - 2
}

// An odd number of d digits whose square leaves `rest` modulo 2^(d + 1), for a rest of 1 modulo 8: by one bit
// after another, and of two such numbers the larger.
fn with_square(rest: u64, d: u32) -> u128 {
    let mut s: u64 = 1;
    for k in 3..=d {
        if (s.wrapping_mul(s) ^ rest) >> k & 1 == 1 {
            s += 1 << (k - 1);
        }
    }
    let low = s % (1 << d);
    low.max((1 << d) - low) as u128
}

// A number above 0 whose root, in units of its last place or of half of it (d is 53 or 54), is very near to an odd
// whole number: the shorter the rest, the nearer.
fn near_odd(r: &mut Random, d: u32) -> u64 {
    let size = r.next() % 30;
    let rest = (1 + 8 * (r.next() % (1 << size))).wrapping_sub((1 << size >> 1) * 8);
    let s = with_square(rest, d);
    let (m, odd) = leading((s * s).wrapping_sub(rest as i64 as u128));
    r.normal(m, 1 - odd)
}

// a number whose root lies very near to a value of 53 digits
fn values(r: &mut Random) -> u64 {
    near_odd(r, 53)
}

// a number whose root lies very near to the middle of two such values
fn ties(r: &mut Random) -> u64 {
    near_odd(r, 54)
}

// just above and below the powers of 2
fn powers(r: &mut Random) -> u64 {
    ((r.next() % 2047) << 52).wrapping_add(r.next() % 64).wrapping_sub(32)
}

fn equal(a: f64, b: f64) -> bool {
    a.to_bits() == b.to_bits() || a.is_nan() && b.is_nan()
}

// How many of the values differ.
fn compare(name: &str, values: impl Iterator<Item = u64>) -> u64 {
    let (mut tried, mut differ, mut first) = (0u64, 0u64, None);
    for bits in values {
        let x = f64::from_bits(bits);
        tried += 1;
        if !equal(root(x), x.sqrt()) {
            differ += 1;
            first = first.or(Some(bits));
        }
    }
    match first {
        None => println!("{name}: {tried} tried, 0 differ"),
        Some(bits) => println!("{name}: {tried} tried, {differ} differ, the first at {bits:#018x}"),
    }
    differ
}

const MANY: usize = 1 << 16;

// The best of 50 runs over MANY values, in ns a call: calls that do not wait for one another, then calls each of
// which waits for the one before.
fn time(name: &str, kind: fn(&mut Random) -> u64, f: fn(f64) -> f64) {
    let mut r = Random(7);
    let xs: Vec<f64> = (0..MANY).map(|_| f64::from_bits(kind(&mut r))).collect();
    let (mut apart, mut chained) = (f64::MAX, f64::MAX);
    let mut out = vec![0.0; MANY];
    for _ in 0..50 {
        let start = Instant::now();
        for i in 0..MANY {
            out[i] = f(xs[i]);
        }
        apart = apart.min(start.elapsed().as_nanos() as f64 / MANY as f64);
        black_box(&out);
        let start = Instant::now();
        let mut last = 0.0;
        for i in 0..MANY {
            last = f(xs[i] + last * 0.0);
        }
        chained = chained.min(start.elapsed().as_nanos() as f64 / MANY as f64);
        black_box(last);
    }
    println!("{name}: {apart:.1} ns a call, {chained:.1} ns one after another");
}

fn main() {
    let many: usize = std::env::args().nth(1).map_or(4_000_000, |a| a.parse().expect("a count"));
    let kinds: [(&str, fn(&mut Random) -> u64); 8] = [
        ("any pattern", any),
        ("normal", normals),
        ("subnormal", subnormals),
        ("sums of squared edges", edges),
        ("squares and neighbours", squares),
        ("roots near a value", values),
        ("roots near a tie", ties),
        ("near powers of 2", powers),
    ];
    let edge = [0.0, f64::MIN_POSITIVE, f64::MAX, f64::INFINITY, f64::NAN, f64::from_bits(1), 432.0, 2.0, 9.0];
    let mut differ = compare("special", edge.iter().flat_map(|x| [x.to_bits(), (-x).to_bits()]));
    for (n, (name, kind)) in kinds.iter().enumerate() {
        let mut r = Random(0x9e37_79b9_7f4a_7c15 + n as u64);
        differ += compare(name, (0..many).map(|_| kind(&mut r)));
    }
    for (name, kind) in [kinds[1], kinds[3]] {
        time(&format!("machine, {name}"), kind, machine);
        time(&format!("root, {name}"), kind, root);
    }
    std::process::exit(if differ > 0 { 1 } else { 0 });
}
