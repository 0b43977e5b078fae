//! A mesh in its buffers, a call with its other inputs, and the answer.
use crate::original::Point;

#[derive(Clone, Copy, PartialEq, Eq, Debug, Default)]
pub struct Sizes {
    pub vertices: usize,
    pub elements: usize,
    pub triples: usize,
}

/// Buffers may be longer than their counts, or shorter: then intake gives 10.
#[derive(Clone, Debug, Default)]
pub struct Mesh {
    pub sizes: Sizes,
    pub parameters: Vec<f64>,
    pub points: Vec<f64>,
    pub masks: Vec<u32>,
    pub elements: Vec<u32>,
    pub surface: Vec<u32>,
}

#[derive(Clone, Copy, PartialEq, Eq, Debug)]
pub enum Pass {
    Improve,
    Smooth,
    Flip,
}

pub const PASSES: [Pass; 3] = [Pass::Improve, Pass::Smooth, Pass::Flip];

impl Pass {
    pub fn name(self) -> &'static str {
        ["improve", "smooth", "flip"][self as usize]
    }

    /// Passes by their names, separated by commas.
    pub fn list(text: &str) -> Result<Vec<Pass>, String> {
        let named = |name: &str| PASSES.into_iter().find(|p| p.name() == name);
        text.split(',').map(|name| named(name).ok_or(format!("unknown pass: {name}"))).collect()
    }
}

/// One call: the pass and all inputs beside the mesh. `fields` has at most eight places.
#[derive(Clone, Debug)]
pub struct Call {
    pub pass: Pass,
    /// x lo, x hi, y lo, y hi, z lo, z hi.
    pub bounds: [f64; 6],
    pub cells: [u32; 3],
    pub periodic: u32,
    pub passes: u32,
    pub field_count: u32,
    pub fields: Vec<(u32, [f64; 4])>,
    pub regions: Option<Vec<u32>>,
    /// Lengths of the two work slices.
    pub words: usize,
    pub floats: usize,
}

#[derive(Clone, Copy, PartialEq, Eq, Debug)]
pub enum Answer {
    Done(usize, Sizes),
    Refused(u32),
}

/// The two zeros count as equal, and every NaN as every other.
pub fn same_float(a: f64, b: f64) -> bool {
    a.to_bits() == b.to_bits() || a == b || (a.is_nan() && b.is_nan())
}

fn same_floats(a: &[f64], b: &[f64]) -> bool {
    a.len() == b.len() && a.iter().zip(b).all(|(&x, &y)| same_float(x, y))
}

impl Mesh {
    pub fn point(&self, v: usize) -> Point {
        std::array::from_fn(|a| self.points[3 * v + a])
    }

    pub fn parameter(&self, v: usize) -> Point {
        std::array::from_fn(|a| self.parameters[3 * v + a])
    }

    pub fn element(&self, i: usize) -> [usize; 4] {
        std::array::from_fn(|k| self.elements[4 * i + k] as usize)
    }

    pub fn triple(&self, i: usize) -> [usize; 3] {
        std::array::from_fn(|k| self.surface[3 * i + k] as usize)
    }

    pub fn same(&self, other: &Mesh) -> bool {
        self.sizes == other.sizes
            && same_floats(&self.parameters, &other.parameters)
            && same_floats(&self.points, &other.points)
            && self.masks == other.masks
            && self.elements == other.elements
            && self.surface == other.surface
    }
}

impl Call {
    pub fn lo(&self) -> Point {
        [self.bounds[0], self.bounds[2], self.bounds[4]]
    }

    pub fn hi(&self) -> Point {
        [self.bounds[1], self.bounds[3], self.bounds[5]]
    }

    /// The box and numbers as the original takes them.
    pub fn setting(&self) -> doc01::access::Setting {
        (
            [self.lo(), self.hi()],
            self.cells.map(|c| c as usize),
            std::array::from_fn(|a| self.periodic >> a & 1 == 1),
            self.passes as usize,
        )
    }
}
