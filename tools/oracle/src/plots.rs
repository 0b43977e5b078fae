//! Block files, whole, damaged and with leftovers, on a port's `plot` and on the one around the original.
use crate::case::Case;
use crate::make::{self, Scale};
use crate::plot::{ELEMENT_SIZE, VERTEX_SIZE, mean, plot, seal, write};
use crate::random::Random;
use std::collections::BTreeMap;
use std::io::Write;
use std::process::{Command, Stdio};

/// A side that gives the text for a file.
pub type Port = fn(&[u8]) -> Vec<u8>;

/// The original itself as port: the comparison's own trial.
#[cfg(not(feature = "bridge-plot"))]
pub fn mirror(file: &[u8]) -> Vec<u8> {
    plot(file).into_bytes()
}

/// One more field, where there is a place for it: its value is 0 at the mean of one of the elements as
/// given, or its numbers are the next ones beside that.
fn add_field(case: &mut Case, r: &mut Random) {
    let (call, mesh) = (&mut case.calls[0], &case.mesh);
    let (count, n) = (call.fields.len(), mesh.sizes);
    if count == 8 || count != call.field_count as usize || n.elements == 0 {
        return;
    }
    let t = mesh.element(r.below(n.elements));
    if t.iter().any(|&v| v >= n.vertices) {
        return;
    }
    let [x, y, z] = mean(mesh, t).map(|x| r.pick(&[x, x, x.next_up(), x.next_down()]));
    call.field_count += 1;
    call.fields.push(match r.below(4) {
        0 => (0, [z, 0., 0., 0.]),
        1 => (1, [1., 0., 0., -x]),
        2 => (1, [0., -1., 0., y]),
        _ => (2, [x, y, z, 0.]),
    });
}

/// The block file of a generated case within the limits of `plot`, with one more field half of the time:
/// always the same for a seed.
pub fn good(seed: u64) -> Vec<u8> {
    let mut r = Random::new(!seed);
    let fits = |i: u64| {
        let mut case = make::case(seed.wrapping_mul(1000).wrapping_add(i), Scale::Small);
        let n = case.mesh.sizes;
        let whole = case.mesh.parameters.len() >= 3 * n.vertices.min(25)
            && case.mesh.points.len() >= 3 * n.vertices.min(25)
            && case.mesh.masks.len() >= n.vertices.min(25)
            && case.mesh.elements.len() >= 4 * n.elements.min(25);
        if n.vertices > 24 || n.elements > 24 || !whole {
            return None;
        }
        if r.one_in(2) {
            add_field(&mut case, &mut r);
        }
        Some(write(&case.calls[0], &case.mesh))
    };
    (0..).find_map(fits).unwrap()
}

fn odd_word(r: &mut Random) -> u32 {
    r.pick(&[0, 1, 2, 3, 8, 9, 24, 25, 4096, 4097, 0x7FF0_0000, 0x7FF8_0000, 0x8000_0000, u32::MAX])
}

fn word(block: &[u8], i: usize) -> u32 {
    u32::from_le_bytes(std::array::from_fn(|b| block[4 * i + b]))
}

/// The block with another word i, sealed anew.
fn set(block: &mut [u8], i: usize, value: u32) {
    block[4 * i..][..4].copy_from_slice(&value.to_le_bytes());
    seal(block);
}

/// A place among the spare words of a block: their first, the one before it, the last, any.
fn spare(block: &[u8], r: &mut Random) -> usize {
    let (count, fields) = (word(block, 2) as usize, word(block, 22) as usize);
    let first = match (word(block, 0), r.below(4)) {
        // Of a place in use, a number that a level does not use.
        (1, 0) => return 26 + 9 * r.below(fields.clamp(1, 8)) + r.below(6),
        // From the first place that no field uses on.
        (1, 1) => 23 + 9 * fields.min(8),
        (1, _) => 95,
        (2, _) => 3 + VERTEX_SIZE * count.min(9),
        _ => 3 + ELEMENT_SIZE * count.min(30),
    };
    let any = r.between(first, 126);
    r.pick(&[first, first - 1, 126, any, any])
}

/// The block with a word left over where none is to be.
fn leave(block: &mut [u8], r: &mut Random) {
    let (i, any) = (spare(block, r), r.bits() as u32);
    set(block, i, r.pick(&[1, 0x3FF0_0000, 0x8000_0000, any]));
}

/// One change: a byte, a word of a sealed block, a cut, bytes behind, blocks exchanged or left out,
/// leftovers in spare words.
pub fn damage(file: &mut Vec<u8>, r: &mut Random) {
    let blocks = file.len() / 512;
    match r.below(9) {
        0 if !file.is_empty() => {
            let i = r.below(file.len());
            file[i] ^= 1 << r.below(8);
        }
        1 => file.truncate(r.below(file.len() + 1)),
        2 => {
            let more = r.pick(&[1, 4, 511, 512, 1024]);
            file.extend(std::iter::repeat_n(r.bits() as u8, more));
        }
        3 if blocks > 1 => {
            let (i, j) = (r.below(blocks), r.below(blocks));
            for b in 0..512 {
                file.swap(512 * i + b, 512 * j + b);
            }
        }
        4 if blocks > 1 => {
            let i = r.below(blocks);
            file.drain(512 * i..512 * (i + 1));
        }
        5 if blocks > 0 => {
            let block = &mut file[512 * r.below(blocks)..][..512];
            set(block, r.below(40), odd_word(r));
        }
        6 | 7 if blocks > 0 => {
            let block = &mut file[512 * r.below(blocks)..][..512];
            let i = r.below(127);
            set(block, i, word(block, i) ^ 1 << r.below(32));
        }
        _ if blocks > 0 => leave(&mut file[512 * r.below(blocks)..][..512], r),
        _ => file.push(r.bits() as u8),
    }
}

/// The file number i: whole one time in four, else with one to three changes.
fn file(seed: u64, i: u64) -> Vec<u8> {
    let mut r = Random::new(seed.wrapping_add(i));
    let mut file = good(seed.wrapping_add(i / 16));
    if i % 4 != 0 {
        for _ in 0..r.between(1, 3) {
            damage(&mut file, &mut r);
        }
    }
    file
}

/// The answers met: how often a table and each number came.
#[derive(Default)]
struct Met(BTreeMap<String, u64>);

impl Met {
    fn add(&mut self, text: &str) {
        let name = if text.starts_with("refused") { text.trim_end() } else { "table" };
        *self.0.entry(name.to_string()).or_default() += 1;
    }

    fn print(&self) {
        self.0.iter().for_each(|(name, count)| println!("{name:12} {count}"));
    }
}

fn compare(port: impl Fn(&[u8]) -> Vec<u8>, files: impl Iterator<Item = Vec<u8>>) -> (u64, u64) {
    let (mut met, mut count, mut different) = (Met::default(), 0, 0);
    for file in files {
        let right = plot(&file);
        met.add(&right);
        count += 1;
        if port(&file) != right.as_bytes() {
            different += 1;
            if different <= 3 {
                println!("file {} differs: {} bytes, original: {right}", count - 1, file.len());
            }
        }
    }
    met.print();
    (count, different)
}

/// A good file with every byte changed in turn, and cut at every length.
fn every_byte(good: &[u8]) -> impl Iterator<Item = Vec<u8>> {
    let changed = (0..good.len()).flat_map(|i| [1u8, 0x80, 0xFF].map(|mask| (i, mask)));
    let changed = changed.map(|(i, mask)| {
        let mut file = good.to_vec();
        file[i] ^= mask;
        file
    });
    let cut = (0..good.len()).map(|n| good[..n].to_vec());
    changed.chain(cut)
}

/// The first good file from a seed on with a table, a full block of vertices, a level in its first
/// place and a place that no field uses.
fn varied(seed: u64) -> Vec<u8> {
    let wanted = |file: &Vec<u8>| {
        let (vertices, fields, kind) = (word(file, 3), word(file, 22), word(file, 23));
        vertices >= 9 && (1..8).contains(&fields) && kind == 0 && !plot(file).starts_with("refused")
    };
    (0..).map(|i| good(seed.wrapping_add(i))).find(wanted).unwrap()
}

/// A good file with the lowest and the highest bit of each word 3 to 126 changed in turn, each time
/// with the block sealed anew.
fn every_word(good: &[u8]) -> impl Iterator<Item = Vec<u8>> {
    let places = (0..good.len() / 512).flat_map(|k| (3..127).map(move |i| (k, i)));
    places.flat_map(|place| [1, 1 << 31].map(|bit| (place, bit))).map(|((k, i), bit)| {
        let mut file = good.to_vec();
        let block = &mut file[512 * k..][..512];
        set(block, i, word(block, i) ^ bit);
        file
    })
}

fn told(what: &str, (count, different): (u64, u64)) -> Result<(), String> {
    println!("{count} files {what}, {different} different");
    if different == 0 { Ok(()) } else { Err("the port differs from the original".to_string()) }
}

/// COUNT files from a seed, then one good file damaged at every byte and cut at every length, and
/// with every word changed and its block sealed anew.
pub fn report(port: Port, count: u64, seed: u64) -> Result<(), String> {
    told(&format!("from seed {seed}"), compare(port, (0..count).map(|i| file(seed, i))))?;
    told(
        "from one file, each byte changed, cut at each length",
        compare(port, every_byte(&good(seed))),
    )?;
    told(
        "from one file, each word 3 to 126 changed, its block sealed anew",
        compare(port, every_word(&varied(seed))),
    )
}

/// The program at a path as port.
fn program(path: &str, input: &[u8]) -> Vec<u8> {
    let mut child = Command::new(path)
        .stdin(Stdio::piped())
        .stdout(Stdio::piped())
        .spawn()
        .unwrap_or_else(|e| panic!("{path}: {e}"));
    // A program that has read enough may close its input early.
    let _ = child.stdin.take().unwrap().write_all(input);
    let out = child.wait_with_output().expect("the program ends");
    if out.status.success() { out.stdout } else { b"the program failed".to_vec() }
}

/// The same files through a program's standard input and output.
pub fn report_program(path: &str, count: u64, seed: u64) -> Result<(), String> {
    let port = |input: &[u8]| program(path, input);
    told(
        &format!("from seed {seed} through {path}"),
        compare(port, (0..count).map(|i| file(seed, i))),
    )
}
