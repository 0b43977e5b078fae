//! Plain doors to the original, the same in every build: only types of the standard library.
use super::super::super::{Options, ScalarField, nonmanifold_vertices};
use super::super::{Output, QualityDiagnostics, project_candidate};
use crate::{Mesh, Point, Tet, boundary as boundary_of, dot, sub};
use std::collections::BTreeSet;

/// Parameters, points, masks, elements, surface.
pub type Body = (Vec<Point>, Vec<Point>, Vec<u32>, Vec<Tet>, Vec<[usize; 3]>);
/// Bounds, cells, periodic directions, optimize_passes.
pub type Setting = ([Point; 2], [usize; 3], [bool; 3], usize);
/// Document 01's fields: 0 level, 1 plane, 2 ball, each with its floats.
pub type Shape = (u32, [f64; 4]);

struct Field(Shape);

impl ScalarField for Field {
    fn value(&self, p: Point) -> f64 {
        let (kind, [a, b, c, d]) = self.0;
        match kind {
            0 => p[2] - a,
            1 => dot([a, b, c], p) + d,
            _ => dot(sub(p, [a, b, c]), sub(p, [a, b, c])) - d * d,
        }
    }
    fn gradient(&self, p: Point) -> Option<Point> {
        let (kind, [a, b, c, _]) = self.0;
        Some(match kind {
            0 => [0., 0., 1.],
            1 => [a, b, c],
            _ => sub(p, [a, b, c]).map(|x| 2. * x),
        })
    }
}

fn options(setting: &Setting) -> Options {
    Options {
        bounds: setting.0,
        cells: setting.1,
        periodic: setting.2,
        optimize_passes: setting.3,
        ..Options::default()
    }
}

fn with_fields<T>(shapes: &[Shape], f: impl FnOnce(&[&dyn ScalarField]) -> T) -> T {
    let fields: Vec<_> = shapes.iter().map(|&s| Field(s)).collect();
    let fields: Vec<&dyn ScalarField> = fields.iter().map(|f| f as &dyn ScalarField).collect();
    f(&fields)
}

/// Pass 0 improve, 1 smooth, 2 flip.
pub fn pass(
    pass: usize,
    body: &mut Body,
    setting: &Setting,
    shapes: &[Shape],
    regions: Option<&[u32]>,
) -> Result<usize, String> {
    let (parameters, points, constraints, tets, surface) = std::mem::take(body);
    let mesh = Mesh { points, tets, surface };
    let quality = QualityDiagnostics::default();
    let mut output = Output { mesh, constraints, parameters, quality };
    let o = options(setting);
    let result = match pass {
        0 => super::improve(&mut output, &o),
        1 => with_fields(shapes, |f| super::smooth(&mut output, &o, f, &|p| p, regions)),
        _ => super::flip(&mut output),
    };
    let Mesh { points, tets, surface } = output.mesh;
    *body = (output.parameters, points, output.constraints, tets, surface);
    result
}

pub fn score(p: [Point; 4]) -> f64 {
    super::q(&p, [0, 1, 2, 3])
}

pub fn determinant(p: [Point; 4]) -> f64 {
    crate::determinant(p)
}

/// The sum of the six squared edges, as `quality` sums them.
pub fn squared_edges(p: [Point; 4]) -> f64 {
    let l2: f64 = (0..4)
        .flat_map(|i| (i + 1..4).map(move |j| dot(sub(p[i], p[j]), sub(p[i], p[j]))))
        .sum();
    l2
}

pub fn norm(p: Point) -> f64 {
    crate::norm(p)
}

pub fn rank(setting: &Setting, p: Point) -> [i64; 3] {
    let o = &options(setting);
    @RANK@
    rank(p)
}

pub fn spacing(setting: &Setting) -> f64 {
    let o = &options(setting);
    @SPACING@
    h
}

pub fn cap(setting: &Setting, p: Point) -> u64 {
    super::cap(p, &options(setting))
}

pub fn value(shape: Shape, p: Point) -> f64 {
    Field(shape).value(p)
}

pub fn gradient(shape: Shape, p: Point) -> Point {
    Field(shape).gradient(p).unwrap()
}

pub fn project(
    setting: &Setting,
    shapes: &[Shape],
    active: &[usize],
    origin: Point,
    candidate: Point,
) -> Option<Point> {
    let step = spacing(setting) * 1e-5;
    let o = options(setting);
    with_fields(shapes, |f| project_candidate(f, active, origin, candidate, &o, step))
}

pub fn boundary(tets: &[Tet]) -> Result<Vec<[usize; 3]>, String> {
    boundary_of(tets)
}

/// The link test of the edge a b among all elements given.
pub fn link(a: usize, b: usize, tets: &[Tet], strata: &[u64]) -> bool {
    let holds = |t: &Tet| t.contains(&a) || t.contains(&b);
    let ids: BTreeSet<_> = (0..tets.len()).filter(|&i| holds(&tets[i])).collect();
    super::link_ok(a, b, &ids, tets, strata)
}

/// The feature test of the edge a b on boundary faces.
pub fn feature(a: usize, b: usize, faces: &[[usize; 3]], strata: &[u64]) -> bool {
    super::feature_link_ok(a, b, faces, strata)
}

pub fn nonmanifold(surface: &[[usize; 3]], vertices: usize) -> Vec<usize> {
    nonmanifold_vertices(surface, vertices)
}
