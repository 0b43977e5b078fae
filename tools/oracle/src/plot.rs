//! Document 01's `plot`, with requests (i) and (ii) of document 02, around the original: blocks read, the three passes once, the table's text.
use crate::intake;
use crate::mesh::{Answer, Call, Mesh, PASSES, Pass, Sizes};
use crate::original::{DOC01, Point, Tet, value};
use crate::shell;
use crate::wholeness::{alternating, tets};
use std::ops::Range;

const BLOCK: usize = 512;
const VERTICES: usize = 9;
const ELEMENTS: usize = 31;
/// The words of a vertex and of an element record.
pub const VERTEX_SIZE: usize = 13;
pub const ELEMENT_SIZE: usize = 4;
const PLACES: usize = 8;
const MOST: usize = 24;

type Words = [u32; 128];

/// How many of a place's four numbers a field of this kind uses; one of unknown kind uses all.
fn used(kind: u32) -> usize {
    if kind == 0 { 1 } else { 4 }
}

/// The words of the header's place j that no field uses: with more than 8 fields every place has a field.
fn unused(header: &Words, j: usize) -> Range<usize> {
    let kind = 23 + 9 * j;
    let field = if j < header[22] as usize { 1 + 2 * used(header[kind]) } else { 0 };
    kind + field..kind + 9
}

/// Whether a word that must be 0 is not, in a block of the expected kind and count.
fn leftovers(words: &Words) -> bool {
    let count = words[2] as usize;
    let dirty = |spare: Range<usize>| words[spare].iter().any(|&w| w != 0);
    match words[0] {
        1 => dirty(95..127) || (0..PLACES).any(|j| dirty(unused(words, j))),
        2 => dirty(3 + VERTEX_SIZE * count..127),
        _ => dirty(3 + ELEMENT_SIZE * count..127),
    }
}

/// The block k of a file, or 1, 2, 3 or 30.
fn block(file: &[u8], k: usize, kind: u32, count: usize) -> Result<Words, u32> {
    let bytes = file.get(BLOCK * k..BLOCK * (k + 1)).ok_or(1u32)?;
    let word = |i: usize| u32::from_le_bytes(std::array::from_fn(|b| bytes[4 * i + b]));
    let words: Words = std::array::from_fn(word);
    if words.iter().fold(0u32, |sum, &w| sum.wrapping_add(w)) != 0 {
        return Err(2);
    }
    if words[..3] != [kind, k as u32, count as u32] {
        return Err(3);
    }
    if leftovers(&words) { Err(30) } else { Ok(words) }
}

fn float(words: &Words, i: usize) -> f64 {
    f64::from_bits(u64::from(words[i]) | u64::from(words[i + 1]) << 32)
}

fn floats<const N: usize>(words: &Words, i: usize) -> [f64; N] {
    std::array::from_fn(|k| float(words, i + 2 * k))
}

/// All blocks of a kind from the block k on: `total` records, `full` a block.
fn blocks(
    file: &[u8],
    k: &mut usize,
    kind: u32,
    total: usize,
    full: usize,
) -> Result<Vec<Words>, u32> {
    let mut all = Vec::new();
    for i in 0..total.div_ceil(full) {
        all.push(block(file, *k, kind, full.min(total - full * i))?);
        *k += 1;
    }
    Ok(all)
}

/// The header's numbers beside the counts.
fn call(header: &Words) -> Call {
    let count = header[22];
    let places = PLACES.min(count as usize);
    Call {
        pass: Pass::Improve,
        bounds: floats(header, 5),
        cells: [header[17], header[18], header[19]],
        periodic: header[20],
        passes: header[21],
        field_count: count,
        fields: (0..places).map(|j| (header[23 + 9 * j], floats(header, 24 + 9 * j))).collect(),
        regions: None,
        words: 256 * MOST + 32 * MOST + 1024,
        floats: 16 * MOST,
    }
}

/// The mesh of a file's vertex and element blocks, with its boundary as the surface if it has one.
fn mesh(vertices: (usize, &[Words]), elements: (usize, &[Words])) -> Mesh {
    let mut mesh = Mesh { elements: vec![0; 8 * MOST], ..Mesh::default() };
    for v in 0..vertices.0 {
        let (words, i) = (&vertices.1[v / VERTICES], 3 + VERTEX_SIZE * (v % VERTICES));
        mesh.parameters.extend(floats::<3>(words, i));
        mesh.points.extend(floats::<3>(words, i + 6));
        mesh.masks.push(words[i + 12]);
    }
    for e in 0..elements.0 {
        let (words, i) = (&elements.1[e / ELEMENTS], 3 + ELEMENT_SIZE * (e % ELEMENTS));
        mesh.elements[4 * e..4 * e + 4].copy_from_slice(&words[i..i + 4]);
    }
    let tets: Vec<_> = (0..elements.0).map(|i| mesh.element(i)).collect();
    let surface = intake::boundary(&tets).unwrap_or_default();
    mesh.sizes = Sizes { vertices: vertices.0, elements: elements.0, triples: surface.len() };
    mesh.surface = surface.into_iter().flatten().map(|v| v as u32).collect();
    mesh.surface.resize(12 * 2 * MOST, 0);
    mesh
}

/// What a file holds, or 1, 2, 3, 30 or 10.
pub fn read(file: &[u8]) -> Result<(Call, Mesh), u32> {
    let header = block(file, 0, 1, 1)?;
    let [nv, ne] = [header[3] as usize, header[4] as usize];
    if nv > MOST || ne > MOST {
        return Err(10);
    }
    let mut k = 1;
    let vertices = blocks(file, &mut k, 2, nv, VERTICES)?;
    let elements = blocks(file, &mut k, 3, ne, ELEMENTS)?;
    if file.len() > BLOCK * k {
        return Err(1);
    }
    Ok((call(&header), mesh((nv, &vertices), (ne, &elements))))
}

/// The mean of an element's four points: per direction the sum left to right, then divided by 4.
pub fn mean(mesh: &Mesh, t: Tet) -> Point {
    let [a, b, c, d] = t.map(|v| mesh.point(v));
    std::array::from_fn(|k| (((a[k] + b[k]) + c[k]) + d[k]) / 4.)
}

/// The table after a run with these counts.
fn table(call: &Call, mesh: &Mesh, counts: [usize; 3]) -> String {
    let tets = tets(mesh);
    let bad = |t: &&[usize; 4]| (DOC01.score)(t.map(|v| mesh.point(v))) < 0.1;
    let [collapse, moved, reconnect] = counts;
    let mut out = format!("vertices {} elements {}\n", mesh.sizes.vertices, tets.len());
    out += &format!("collapse {collapse} move {moved} reconnect {reconnect}\n");
    out += &format!("low {} euler {}\n", tets.iter().filter(bad).count(), alternating(mesh));
    for (j, &field) in call.fields.iter().enumerate() {
        let inside = tets.iter().filter(|&&t| value(field, mean(mesh, t)) <= 0.).count();
        out += &format!("inside {j} {inside}\n");
    }
    for [a, b, c, d] in tets {
        out += &format!("element {a} {b} {c} {d}\n");
    }
    out
}

fn run(file: &[u8]) -> Result<String, u32> {
    let (mut call, mut mesh) = read(file)?;
    let mut counts = [0; 3];
    for pass in PASSES {
        call.pass = pass;
        match shell::run(&DOC01, &mut mesh, &call) {
            Answer::Done(count, _) => counts[pass as usize] = count,
            Answer::Refused(number) => return Err(number),
        }
    }
    Ok(table(&call, &mesh, counts))
}

/// What `plot` prints for a file.
pub fn plot(file: &[u8]) -> String {
    run(file).unwrap_or_else(|number| format!("refused {number}\n"))
}

/// Sets word 127 of a block such that all words add to 0.
pub fn seal(block: &mut [u8]) {
    let word = |i: usize| u32::from_le_bytes(std::array::from_fn(|b| block[4 * i + b]));
    let sum = (0..127).fold(0u32, |sum, i| sum.wrapping_add(word(i)));
    block[508..].copy_from_slice(&sum.wrapping_neg().to_le_bytes());
}

/// A file in the making: words are added to its last block.
struct File(Vec<u32>);

impl File {
    fn block(&mut self, kind: usize, count: usize) {
        let k = self.0.len().div_ceil(128);
        self.0.resize(128 * k, 0);
        self.0.extend([kind, k, count].map(|n| n as u32));
    }

    fn floats(&mut self, values: &[f64]) {
        self.0.extend(values.iter().flat_map(|x| [x.to_bits() as u32, (x.to_bits() >> 32) as u32]));
    }

    fn bytes(mut self) -> Vec<u8> {
        self.0.resize(self.0.len().next_multiple_of(128), 0);
        let mut bytes: Vec<_> = self.0.iter().flat_map(|w| w.to_le_bytes()).collect();
        bytes.chunks_mut(BLOCK).for_each(seal);
        bytes
    }
}

/// The block file of a mesh and a call's box, numbers and fields. Fields past the count are left out,
/// and so are the numbers that a field's kind does not use: no spare word is other than 0.
pub fn write(call: &Call, mesh: &Mesh) -> Vec<u8> {
    let n = mesh.sizes;
    let mut file = File(Vec::new());
    file.block(1, 1);
    file.0.extend([n.vertices as u32, n.elements as u32]);
    file.floats(&call.bounds);
    file.0.extend(call.cells);
    file.0.extend([call.periodic, call.passes, call.field_count]);
    for &(kind, numbers) in call.fields.iter().take(PLACES.min(call.field_count as usize)) {
        file.0.push(kind);
        file.floats(&numbers[..used(kind)]);
        file.floats(&[0.; 4][used(kind)..]);
    }
    for v in 0..n.vertices {
        if v % VERTICES == 0 {
            file.block(2, VERTICES.min(n.vertices - v));
        }
        file.floats(&mesh.parameter(v));
        file.floats(&mesh.point(v));
        file.0.push(mesh.masks[v]);
    }
    for e in 0..n.elements {
        if e % ELEMENTS == 0 {
            file.block(3, ELEMENTS.min(n.elements - e));
        }
        file.0.extend(mesh.element(e).map(|v| v as u32));
    }
    file.bytes()
}
