//! What a block needs to become a case: box, parameters, fields, masks, buffers, calls.
use super::block::Block;
use crate::case::Case;
use crate::intake::boundary;
use crate::mesh::{Call, Mesh, PASSES, Pass, Sizes};
use crate::original::{Point, gradient, value};
use crate::random::Random;

pub type Shape = (u32, [f64; 4]);

/// A block on its way to a case.
pub struct Dressed {
    pub block: Block,
    pub parameters: Vec<Point>,
    pub masks: Vec<u32>,
    pub fields: Vec<Shape>,
    pub lo: Point,
    pub hi: Point,
    pub periodic: u32,
    /// Cells that go with the box; None: chosen by the mean edge.
    pub cells: Option<[u32; 3]>,
}

fn norm(p: Point) -> f64 {
    p.iter().map(|x| x * x).sum::<f64>().sqrt()
}

impl Dressed {
    pub fn new(block: Block) -> Self {
        let (lo, hi) = block.extent();
        let parameters = block.points.clone();
        let masks = vec![0; block.points.len()];
        Dressed { block, parameters, masks, fields: Vec::new(), lo, hi, periodic: 0, cells: None }
    }

    fn size(&self) -> f64 {
        norm(std::array::from_fn(|a| self.hi[a] - self.lo[a]))
    }

    /// A box larger than the block in some directions: no vertex on those faces.
    pub fn widen(&mut self, r: &mut Random) {
        let size = self.size();
        for a in 0..3 {
            if r.one_in(2) {
                self.lo[a] -= size * r.unit();
            }
            if r.one_in(2) {
                self.hi[a] += size * r.unit();
            }
        }
    }

    /// A box of whole numbers whose spacing is 4/3, 1 or 2: edges of length 1 are then exactly
    /// 0.75 h, 0.75 h and more, or less.
    pub fn whole_box(&mut self, r: &mut Random) {
        let mut most = 0.;
        for a in 0..3 {
            self.lo[a] = self.lo[a].floor() - 1.;
            most = self.hi[a].max(self.lo[a] + most) - self.lo[a];
        }
        if !(most < 500.) {
            return;
        }
        let fours = (most / 4.).ceil() + 1.;
        self.hi = self.lo.map(|x| x + 4. * fours);
        self.cells = Some([r.pick(&[2, 3, 3, 4]) * fours as u32; 3]);
    }

    /// Parameters that are not the points: stretched with the box.
    pub fn stretch(&mut self, r: &mut Random) {
        let scale: Point = std::array::from_fn(|_| r.range(0.5, 2.));
        let map = |p: Point| -> Point { std::array::from_fn(|a| p[a] * scale[a] + 0.25) };
        self.parameters = self.parameters.iter().map(|&p| map(p)).collect();
        (self.lo, self.hi) = (map(self.lo), map(self.hi));
    }

    /// Equal or nearly equal parameters for some pairs.
    pub fn equal_ranks(&mut self, r: &mut Random) {
        let n = self.parameters.len();
        for _ in 0..r.between(1, 3 + n / 8) {
            let (v, w) = (r.below(n), r.below(n));
            let mut p = self.parameters[w];
            if r.one_in(3) {
                let a = r.below(3);
                p[a] += (self.hi[a] - self.lo[a]) * r.range(-6e-12, 6e-12);
                p[a] = p[a].clamp(self.lo[a], self.hi[a]);
            }
            self.parameters[v] = p;
        }
    }

    /// Vertices as periodic images of one another, wherever their points are: groups of two, one
    /// member on lo and one on hi of x (or within half a rank of lo).
    pub fn pair_up(&mut self, r: &mut Random) {
        let near = r.one_in(3);
        self.periodic |= 1;
        let mut order: Vec<_> = (0..self.parameters.len()).collect();
        r.shuffle(&mut order);
        for (k, &v) in order.iter().enumerate() {
            if k % 2 == 0 {
                self.parameters[v][0] = self.lo[0];
                continue;
            }
            self.parameters[v] = self.parameters[order[k - 1]];
            let step = (self.hi[0] - self.lo[0]) * 3e-12;
            self.parameters[v][0] = if near { self.lo[0] + step } else { self.hi[0] };
        }
    }

    /// Vertices that no element uses.
    pub fn unused(&mut self, r: &mut Random) {
        for _ in 0..r.between(1, 3) {
            let p = std::array::from_fn(|a| self.lo[a] + (self.hi[a] - self.lo[a]) * r.unit());
            let twin = r.one_in(3) && !self.parameters.is_empty();
            let u = if twin { self.parameters[r.below(self.parameters.len())] } else { p };
            self.block.points.push(p);
            self.parameters.push(u);
            self.masks.push(r.bits() as u32 & 3);
        }
    }

    /// Unused vertices up to a number in all.
    pub fn fill_vertices(&mut self, count: usize) {
        for k in self.parameters.len()..count {
            let part = k as f64 / 8192.;
            let p = std::array::from_fn(|a| self.lo[a] + part * (self.hi[a] - self.lo[a]));
            self.block.points.push(p);
            self.parameters.push(p);
            self.masks.push(0);
        }
    }

    fn field(&self, r: &mut Random) -> Shape {
        let p = self.parameters[r.below(self.parameters.len())];
        let q = self.parameters[r.below(self.parameters.len())];
        let size = self.size();
        match r.below(6) {
            0 => (0, [p[2], 0., 0., 0.]),
            1 => {
                let a = r.below(3);
                let mut n = [0.; 3];
                n[a] = r.pick(&[1., -1., 3., 1e-3]);
                (1, [n[0], n[1], n[2], -n[a] * p[a]])
            }
            2 => {
                let n = r.point(1.);
                let d: f64 = (0..3).map(|a| n[a] * p[a]).sum();
                (1, [n[0], n[1], n[2], -d])
            }
            _ => {
                let far = if r.one_in(4) { 20. } else { 0.7 };
                let c: Point = std::array::from_fn(|a| q[a] + size * far * r.range(-1., 1.));
                let d = norm(std::array::from_fn(|a| p[a] - c[a]));
                (2, [c[0], c[1], c[2], if r.one_in(8) { -d } else { d }])
            }
        }
    }

    /// A field that the solve stumbles over: no gradient, twice the same, nearly parallel.
    fn awkward(&self, r: &mut Random) -> Shape {
        let p = self.parameters[r.below(self.parameters.len())];
        match (r.below(8), self.fields.last().copied()) {
            (0, _) => (1, [0., 0., 0., r.pick(&[0., 1.])]),
            (1, _) => (2, [p[0], p[1], p[2], 0.]),
            (2, Some(f)) => f,
            (3, Some((kind, mut f))) => {
                let k = r.below(4);
                f[k] += f[k].abs().max(1e-3) * r.magnitude(-9., -3.) * r.pick(&[1., -1.]);
                (kind, f)
            }
            (4, _) => (2, [p[0], p[1], p[2], r.magnitude(-8., -1.)]),
            (5, _) => (1, [r.magnitude(-300., -5.), 0., 0., 0.]),
            _ => (1, [0., r.magnitude(-161., -20.), 0., r.pick(&[1., -1.])]),
        }
    }

    /// Set the bit of field j for some vertices, whether they lie on it or not.
    fn force_masks(&mut self, r: &mut Random, j: usize) {
        for m in &mut self.masks {
            if r.one_in(3) {
                *m |= 1 << j;
            }
        }
    }

    /// Fields through vertices, the block mostly inside them, and masks for vertices on them.
    pub fn add_fields(&mut self, r: &mut Random, count: usize) {
        let size = self.size();
        for _ in 0..count {
            let awkward = r.one_in(8);
            let mut f = if awkward { self.awkward(r) } else { self.field(r) };
            let middle = std::array::from_fn(|a| (self.lo[a] + self.hi[a]) / 2.);
            if f.0 == 1 && value(f, middle) > 0. && !r.one_in(6) {
                f.1 = f.1.map(|x| -x);
            }
            f.1 = f.1.map(|x| x.clamp(-1_048_576., 1_048_576.));
            self.fields.push(f);
            if awkward && r.one_in(2) {
                self.force_masks(r, self.fields.len() - 1);
            }
        }
        let loose = if r.one_in(4) { 0.1 } else { 1e-9 };
        for (j, &f) in self.fields.iter().enumerate() {
            for (v, &p) in self.parameters.iter().enumerate() {
                let g = norm(gradient(f, p));
                if value(f, p).abs() <= loose * size * g {
                    self.masks[v] |= 1 << j;
                }
            }
        }
    }

    /// Bits at random, those of no field too.
    pub fn scatter_masks(&mut self, r: &mut Random) {
        let bits = r.pick(&[1, 3, 7, 0xFF, 0x8000_0003]);
        for m in &mut self.masks {
            if r.one_in(3) {
                *m |= r.bits() as u32 & bits;
            }
        }
    }

    fn mean_edge(&self, r: &mut Random) -> f64 {
        let mut sum = 0.;
        let pairs = 40;
        for _ in 0..pairs {
            let t = r.pick(&self.block.tets);
            let (p, q) = (self.parameters[t[r.below(2)]], self.parameters[t[2 + r.below(2)]]);
            sum += norm(std::array::from_fn(|a| p[a] - q[a]));
        }
        sum / pairs as f64
    }

    /// Cells that make the spacing a small multiple of the mean edge.
    fn cells(&self, r: &mut Random) -> [u32; 3] {
        if let Some(cells) = self.cells {
            return cells;
        }
        if self.block.tets.is_empty() {
            return [1, 2, 3];
        }
        let h = self.mean_edge(r) * r.magnitude(-0.5, 0.7);
        std::array::from_fn(|a| {
            let n = ((self.hi[a] - self.lo[a]) / h).round();
            if n.is_finite() { n.clamp(1., 4096.) as u32 } else { 1 }
        })
    }

    fn regions(&self, r: &mut Random) -> Option<Vec<u32>> {
        if !r.one_in(3) {
            return None;
        }
        let all = (1u32 << self.fields.len()) - 1;
        let count = r.below(4);
        Some((0..count).map(|_| if r.one_in(4) { all } else { r.bits() as u32 & all }).collect())
    }

    fn passes(r: &mut Random) -> Vec<Pass> {
        if r.one_in(3) {
            return PASSES.to_vec();
        }
        let count = r.between(1, 4);
        (0..count).map(|_| r.pick(&PASSES)).collect()
    }

    fn calls(&self, r: &mut Random) -> Vec<Call> {
        let (v, e) = (self.block.points.len(), self.block.tets.len());
        let mut cells = self.cells(r);
        let mut passes = r.pick(&[1, 1, 2, 3, 16, 0]);
        let room = if r.one_in(8) { e } else { 2 * e };
        Self::passes(r)
            .into_iter()
            .map(|pass| {
                if r.one_in(6) {
                    cells = self.cells(r);
                    passes = r.pick(&[1, 2, 16]);
                }
                let (lo, hi) = (self.lo, self.hi);
                Call {
                    pass,
                    bounds: [lo[0], hi[0], lo[1], hi[1], lo[2], hi[2]],
                    cells,
                    periodic: self.periodic,
                    passes,
                    field_count: self.fields.len() as u32,
                    fields: self.fields.clone(),
                    regions: self.regions(r),
                    words: 256 * room + 32 * v + 1024,
                    floats: 16 * v,
                }
            })
            .collect()
    }

    fn mesh(&self, r: &mut Random) -> Mesh {
        let (v, e) = (self.block.points.len(), self.block.tets.len());
        let surface = boundary(&self.block.tets).unwrap_or_default();
        let spare = r.pick(&[0, 0, 1, 5]);
        let room = if r.one_in(6) { e } else { 2 * e };
        let mut mesh = Mesh {
            sizes: Sizes { vertices: v, elements: e, triples: surface.len() },
            parameters: self.parameters.iter().flatten().copied().collect(),
            points: self.block.points.iter().flatten().copied().collect(),
            masks: self.masks.clone(),
            elements: self.block.tets.iter().flatten().map(|&v| v as u32).collect(),
            surface: surface.iter().flatten().map(|&v| v as u32).collect(),
        };
        mesh.parameters.extend((0..3 * spare).map(|_| r.unit()));
        mesh.points.extend((0..2 * spare).map(|_| r.unit()));
        mesh.masks.extend((0..spare).map(|_| r.bits() as u32));
        let garbage = r.bits() as u32;
        mesh.elements.resize(8 * room + spare, garbage);
        mesh.surface.resize(12 * room + spare, garbage / 3);
        mesh
    }

    /// The surface in another order, turned, or wrong.
    fn disturb_surface(mesh: &mut Mesh, r: &mut Random) {
        let n = mesh.sizes.triples;
        if n < 2 {
            return;
        }
        let (i, j) = (r.below(n), r.below(n));
        match r.below(8) {
            0 => (0..3).for_each(|k| mesh.surface.swap(3 * i + k, 3 * j + k)),
            1 => mesh.surface[3 * i..3 * i + 3].rotate_left(1),
            2 => mesh.surface.swap(3 * i, 3 * i + 1),
            3 => mesh.sizes.triples -= 1,
            4 => mesh.surface[3 * i] = mesh.surface[3 * j + 1],
            5 => (0..3).for_each(|k| mesh.surface[3 * i + k] = mesh.surface[3 * j + k]),
            _ => mesh.surface[3 * i + r.below(3)] = r.bits() as u32,
        }
    }

    pub fn case(&self, name: String, r: &mut Random) -> Case {
        let mut mesh = self.mesh(r);
        if r.one_in(12) {
            Self::disturb_surface(&mut mesh, r);
        }
        let calls = self.calls(r);
        Case { name, mesh, calls, answers: Vec::new() }
    }
}
