//! Halmafir repairs meshes of tetrahedra: [`improve`] collapses short edges of badly shaped
//! elements, [`smooth`] moves vertices, [`flip`] reconnects elements, [`boundary`] gives a mesh's
//! surface, and [`report`] is what the program `plot` prints for a block file. The functions that
//! this crate calls are proved: for every input each gives exactly what its definition gives, or
//! one number of a table, and a refused mesh is left as it was. No call panics, whatever the
//! numbers are, short of memory.
//!
//! Two things are the caller's to see to: the floating-point environment is the one that a program
//! starts with (rounding to nearest, subnormal numbers kept, exceptions masked; a C library built
//! with `-ffast-math` that is linked in can change it), and the stack has about 50 KiB left for
//! [`report`], 16 KiB for the others.
//!
//! ```
//! use halmafir::{Field, Mesh, Options, boundary, improve};
//!
//! let elements = vec![[0, 1, 2, 3]];
//! let points = vec![[0., 0., 0.], [1., 0., 0.], [0., 1., 0.], [0., 0., 1.]];
//! let surface = boundary(&elements)?;
//! let mut mesh = Mesh { parameters: points.clone(), points, masks: vec![0; 4], elements, surface };
//! let options = Options {
//!     lo: [0.; 3],
//!     hi: [1.; 3],
//!     cells: [1; 3],
//!     periodic: 0,
//!     passes: 1,
//!     fields: vec![Field::level(0.5)],
//! };
//! assert_eq!(improve(&mut mesh, &options)?, 0);
//! # Ok::<(), halmafir::Refusal>(())
//! ```
mod plain;
mod refusal;

use plain::{Made, Numbers, Settings, Sizes};
pub use refusal::Refusal;

/// What a pass gives: its count, or the number of its refusal.
pub type Outcome = Result<usize, Refusal>;

/// Most vertices of a mesh; more give 10.
pub const VERTICES: usize = 4096;

/// Most elements of a mesh; more give 10.
pub const ELEMENTS: usize = 16384;

/// A mesh. The number of vertices is the longest of the first three lengths, so that one of them
/// that is shorter than another gives 10.
#[derive(Clone, Debug, Default, PartialEq)]
pub struct Mesh {
    /// Within the box, one a vertex.
    pub parameters: Vec<[f64; 3]>,
    /// One a vertex.
    pub points: Vec<[f64; 3]>,
    /// One a vertex: bit j says that the vertex lies on field j.
    pub masks: Vec<u32>,
    /// Four vertex numbers each.
    pub elements: Vec<[u32; 4]>,
    /// Three vertex numbers each; what [`boundary`] gives.
    pub surface: Vec<[u32; 3]>,
}

/// A field: a kind and four numbers, of which each kind uses its own. The constructors give the
/// three kinds; another one gives 11.
#[derive(Clone, Copy, Debug, PartialEq)]
pub struct Field {
    /// 0 level, 1 plane, 2 ball.
    pub kind: u32,
    /// Level: c. Plane: n, d. Ball: c, r.
    pub numbers: [f64; 4],
}

impl Field {
    /// z - c.
    pub fn level(c: f64) -> Self {
        Field { kind: 0, numbers: [c, 0., 0., 0.] }
    }

    /// n·p + d.
    pub fn plane([x, y, z]: [f64; 3], d: f64) -> Self {
        Field { kind: 1, numbers: [x, y, z, d] }
    }

    /// |p - c|² - r².
    pub fn ball([x, y, z]: [f64; 3], r: f64) -> Self {
        Field { kind: 2, numbers: [x, y, z, r] }
    }
}

/// The box and what stands beside it.
#[derive(Clone, Debug, PartialEq)]
pub struct Options {
    /// Lower bounds per direction.
    pub lo: [f64; 3],
    /// Upper bounds per direction.
    pub hi: [f64; 3],
    /// Cells per direction, 1 to 4,096.
    pub cells: [u32; 3],
    /// Periodic directions: x is 1, y 2, z 4.
    pub periodic: u32,
    /// Most rounds of [`improve`], up to 16.
    pub passes: u32,
    /// Up to 8.
    pub fields: Vec<Field>,
}

impl Options {
    /// The whole numbers as the plain functions take them.
    fn settings(&self) -> Settings {
        let mut kinds = [0; 8];
        for (kind, field) in kinds.iter_mut().zip(&self.fields) {
            *kind = field.kind;
        }
        Settings {
            cells: self.cells,
            periodic: self.periodic,
            passes: self.passes,
            // Over 8 gives 11, however many.
            field_count: u32::try_from(self.fields.len()).unwrap_or(u32::MAX),
            kinds,
        }
    }

    /// The box and the fields' numbers as the plain functions take them.
    fn numbers(&self) -> Numbers {
        let ([a, b, c], [d, e, f]) = (self.lo, self.hi);
        let mut fields = [[0.; 4]; 8];
        for (numbers, field) in fields.iter_mut().zip(&self.fields) {
            *numbers = field.numbers;
        }
        Numbers { bounds: [a, d, b, e, c, f], fields }
    }
}

/// The work of a pass. A mesh over the limits needs none: it gives 10.
struct Work {
    words: Vec<u32>,
    floats: Vec<f64>,
}

impl Work {
    fn new(vertices: usize, elements: usize) -> Self {
        let (v, e) = (vertices.min(VERTICES), elements.min(ELEMENTS));
        Work { words: vec![0; 256 * e + 32 * v + 1024], floats: vec![0.; 16 * v] }
    }
}

impl Mesh {
    fn sizes(&self) -> Sizes {
        let vertices = self.parameters.len().max(self.points.len()).max(self.masks.len());
        Sizes { vertices, elements: self.elements.len(), triples: self.surface.len() }
    }

    /// Room for twice the elements and for four triples an element.
    fn grow(&mut self) {
        let n = self.elements.len();
        if n <= ELEMENTS {
            self.elements.resize(2 * n, [0; 4]);
            self.surface.resize(self.surface.len().max(4 * n), [0; 3]);
        }
    }

    /// Drops what stands past these elements and triples.
    fn shrink(&mut self, elements: usize, triples: usize) {
        self.elements.truncate(elements);
        self.surface.truncate(triples);
    }

    /// Drops what stands past these vertices.
    fn keep(&mut self, vertices: usize) {
        self.parameters.truncate(vertices);
        self.points.truncate(vertices);
        self.masks.truncate(vertices);
    }
}

/// What is lent to a pass: the buffers of a mesh and the work, no two of which overlap.
struct Lent<'a> {
    parameters: &'a mut [f64],
    points: &'a mut [f64],
    masks: &'a mut [u32],
    elements: &'a mut [u32],
    surface: &'a mut [u32],
    words: &'a mut [u32],
    floats: &'a mut [f64],
}

/// Calls a pass on the grown mesh and takes over what it made. The mesh is as it was where the pass
/// refuses.
fn pass(mesh: &mut Mesh, call: impl FnOnce(Lent, &Sizes, &mut Made) -> u32) -> Outcome {
    let sizes = mesh.sizes();
    let mut work = Work::new(sizes.vertices, sizes.elements);
    let mut made = Made { count: 0, vertices: 0, elements: 0, triples: 0 };
    mesh.grow();
    let lent = Lent {
        parameters: mesh.parameters.as_flattened_mut(),
        points: mesh.points.as_flattened_mut(),
        masks: &mut mesh.masks,
        elements: mesh.elements.as_flattened_mut(),
        surface: mesh.surface.as_flattened_mut(),
        words: &mut work.words,
        floats: &mut work.floats,
    };
    let number = call(lent, &sizes, &mut made);
    if number != 0 {
        mesh.shrink(sizes.elements, sizes.triples);
        return Err(Refusal(number));
    }
    mesh.keep(made.vertices);
    mesh.shrink(made.elements, made.triples);
    Ok(made.count)
}

/// Collapses short edges of badly shaped elements, up to `options.passes` rounds, then renumbers
/// the vertices by first use, drops those that no element has and sets the surface to the boundary.
/// Gives the number of vertices replaced.
#[rustfmt::skip]
pub fn improve(mesh: &mut Mesh, options: &Options) -> Outcome {
    let (settings, numbers) = (options.settings(), options.numbers());
    pass(mesh, |lent, sizes, made| {
        // SAFETY: each pointer is that of a live slice of the length beside it, and no two overlap.
        unsafe {
            plain::halmafir_improve(
                lent.parameters.as_mut_ptr(), lent.parameters.len(),
                lent.points.as_mut_ptr(), lent.points.len(),
                lent.masks.as_mut_ptr(), lent.masks.len(),
                lent.elements.as_mut_ptr(), lent.elements.len(),
                lent.surface.as_mut_ptr(), lent.surface.len(),
                sizes, &settings, &numbers,
                lent.words.as_mut_ptr(), lent.words.len(),
                lent.floats.as_mut_ptr(), lent.floats.len(),
                made,
            )
        }
    })
}

/// Moves vertices of badly shaped elements. Gives the number of vertices moved. `regions` are masks
/// of fields; no list and an empty list are different: with an empty list every point is outside.
#[rustfmt::skip]
pub fn smooth(mesh: &mut Mesh, options: &Options, regions: Option<&[u32]>) -> Outcome {
    let (settings, numbers) = (options.settings(), options.numbers());
    let list = regions.unwrap_or(&[]);
    pass(mesh, |lent, sizes, made| {
        // SAFETY: each pointer is that of a live slice of the length beside it, and none that is written overlaps another.
        unsafe {
            plain::halmafir_smooth(
                lent.parameters.as_mut_ptr(), lent.parameters.len(),
                lent.points.as_mut_ptr(), lent.points.len(),
                lent.masks.as_ptr(), lent.masks.len(),
                lent.elements.as_ptr(), lent.elements.len(),
                lent.surface.as_ptr(), lent.surface.len(),
                sizes, &settings, &numbers,
                u32::from(regions.is_some()), list.as_ptr(), list.len(),
                lent.words.as_mut_ptr(), lent.words.len(),
                lent.floats.as_mut_ptr(), lent.floats.len(),
                made,
            )
        }
    })
}

/// Reconnects badly shaped elements and sets the surface to the boundary. Gives the number of flips
/// made.
#[rustfmt::skip]
pub fn flip(mesh: &mut Mesh, options: &Options) -> Outcome {
    let (settings, numbers) = (options.settings(), options.numbers());
    pass(mesh, |lent, sizes, made| {
        // SAFETY: each pointer is that of a live slice of the length beside it, and no two overlap.
        unsafe {
            plain::halmafir_flip(
                lent.parameters.as_ptr(), lent.parameters.len(),
                lent.points.as_ptr(), lent.points.len(),
                lent.masks.as_ptr(), lent.masks.len(),
                lent.elements.as_mut_ptr(), lent.elements.len(),
                lent.surface.as_mut_ptr(), lent.surface.len(),
                sizes, &settings, &numbers,
                lent.words.as_mut_ptr(), lent.words.len(),
                lent.floats.as_mut_ptr(), lent.floats.len(),
                made,
            )
        }
    })
}

/// The sorted boundary triples of elements, or 10, 16 or 17.
#[rustfmt::skip]
pub fn boundary(elements: &[[u32; 4]]) -> Result<Vec<[u32; 3]>, Refusal> {
    // Over the limit it gives 10, and needs no room.
    let n = elements.len().min(ELEMENTS);
    let mut surface = vec![[0; 3]; 4 * n];
    let mut words: Vec<u32> = vec![0; 36 * n];
    let mut triples = 0;
    let flat = elements.as_flattened();
    let places = surface.as_flattened_mut();
    // SAFETY: each pointer is that of a live slice of the length beside it, and none that is written overlaps another.
    let number = unsafe {
        plain::halmafir_boundary(
            flat.as_ptr(), flat.len(),
            elements.len(),
            places.as_mut_ptr(), places.len(),
            words.as_mut_ptr(), words.len(),
            &mut triples,
        )
    };
    surface.truncate(triples);
    if number == 0 { Ok(surface) } else { Err(Refusal(number)) }
}

/// What the program `plot` prints for the bytes of a block file: the table, or a line `refused N`,
/// where N is a number that a pass gives or 1, 2, 3 or 30, those of a block: [`Refusal::reason`]
/// has their rows. 10 stands for over 24 vertices or 24 elements.
pub fn report(file: &[u8]) -> String {
    let mut out = vec![0; 50_000];
    // SAFETY: both pointers are those of live slices of the lengths beside them, which do not overlap.
    let length =
        unsafe { plain::halmafir_report(file.as_ptr(), file.len(), out.as_mut_ptr(), out.len()) };
    out.truncate(length);
    String::from_utf8_lossy(&out).into_owned()
}
