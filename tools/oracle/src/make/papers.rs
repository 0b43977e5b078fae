//! Cases and units that document 01 names, and the smallest known ones of rare answers.
use super::block::Block;
use crate::case::Case;
use crate::intake::boundary;
use crate::mesh::{Call, Mesh, PASSES, Pass, Sizes};
use crate::original::Point;
use crate::unit::Unit;

fn call(pass: Pass, block: &Block, bounds: [f64; 6], cells: u32) -> Call {
    Call {
        pass,
        bounds,
        cells: [cells; 3],
        periodic: 0,
        passes: 1,
        field_count: 1,
        fields: vec![(0, [0.5, 0., 0., 0.])],
        regions: None,
        words: 512 * block.tets.len() + 32 * block.points.len() + 1024,
        floats: 16 * block.points.len(),
    }
}

/// A block as a mesh, its parameters the points, with spare places in the buffers.
pub fn mesh(block: &Block) -> Mesh {
    let surface = boundary(&block.tets).unwrap_or_default();
    let sizes =
        Sizes { vertices: block.points.len(), elements: block.tets.len(), triples: surface.len() };
    let flat: Vec<f64> = block.points.iter().flatten().copied().collect();
    let mut mesh = Mesh {
        sizes,
        parameters: flat.clone(),
        points: flat,
        masks: vec![0; sizes.vertices],
        elements: block.tets.iter().flatten().map(|&v| v as u32).collect(),
        surface: surface.iter().flatten().map(|&v| v as u32).collect(),
    };
    mesh.elements.resize(16 * sizes.elements, 7);
    mesh.surface.resize(24 * sizes.elements, 9);
    mesh
}

fn case(name: &str, points: &[Point], tets: &[[usize; 4]], bounds: [f64; 6], cells: u32) -> Case {
    let block = Block { points: points.to_vec(), tets: tets.to_vec() };
    let calls = PASSES.iter().map(|&pass| call(pass, &block, bounds, cells)).collect();
    Case { name: name.to_string(), mesh: mesh(&block), calls, answers: Vec::new() }
}

const M4: [Point; 4] = [[0., 0., 0.], [1., 0., 0.], [0., 1., 0.], [0., 0., 1.]];
const UNIT_BOX: [f64; 6] = [0., 1., 0., 1., 0., 1.];
const LIMIT: f64 = 1_048_576.;
/// Two corners that meet in vertex 0.
pub const TOUCHING: [Point; 7] = [
    [0., 0., 0.],
    [1., 0., 0.],
    [0., 1., 0.],
    [0., 0., 1.],
    [-1., 0., 0.],
    [0., -1., 0.],
    [0., 0., -1.],
];

/// An edge of the given length in a bad element, spacing 1: tried only if shorter than 0.75.
fn length(name: &str, x: f64) -> Case {
    let points = [[0., 0., 0.], [16., 0., 0.], [0., 16., 0.], [0., 0., 16.], [x, 0., 0.]];
    let box_ = [-100., 100., -100., 100., -100., 100.];
    case(name, &points, &[[4, 1, 2, 3], [0, 4, 2, 3]], box_, 200)
}

/// 11 from each pass, on a mesh that `improve` would change.
fn with_17_passes(mut c: Case) -> Case {
    c.calls.iter_mut().for_each(|call| call.passes = 17);
    c
}

fn far(name: &str, x: f64) -> Case {
    let mut c = case(name, &M4, &[[0, 1, 2, 3]], UNIT_BOX, 1);
    c.mesh.points[3] = x;
    c
}

/// Two elements whose new ones turn over by so little that the volume agrees: a face with equal
/// parities, 17 at the end of `flip`.
fn flip_only(mut c: Case) -> Case {
    c.calls.retain(|call| call.pass == Pass::Flip);
    c
}

pub fn cases() -> Vec<Case> {
    let five = [[0., 0., 0.], [1., 0., 0.], [0., 1., 0.], [0., 0., 1.], [0.75, 0.75, 0.75]];
    let folded =
        [[0., 0., 0.], [1., 0., 0.], [0.5, 3., 0.], [0.5, 0.3, 0.8], [0.5, -1e-10, -1e-13]];
    let wide = [-4., 4., -4., 4., -4., 4.];
    let under = f64::from_bits(0.75f64.to_bits() - 1);
    vec![
        case("m4", &M4, &[[0, 1, 2, 3]], UNIT_BOX, 1),
        case("m5", &M4, &[[0, 1, 3, 2]], UNIT_BOX, 1),
        case("m12", &five, &[[0, 1, 2, 3], [1, 2, 3, 4]], UNIT_BOX, 1),
        case("empty", &[], &[], UNIT_BOX, 1),
        case("no-elements", &M4, &[], UNIT_BOX, 1),
        case("touching", &TOUCHING, &[[0, 1, 2, 3], [0, 4, 6, 5]], wide, 8),
        far("at-limit", LIMIT),
        far("over-limit", f64::from_bits(LIMIT.to_bits() + 1)),
        length("length-0.75h", 0.75),
        length("length-under-0.75h", under),
        flip_only(case("folded", &folded, &[[0, 1, 2, 3], [0, 2, 1, 4]], wide, 8)),
        with_17_passes(length("passes-17", under)),
    ]
}

pub fn units() -> Vec<Unit> {
    let corner = |z: f64| [0., 0., 0., 1., 0., 0., 0., 1., 0., 1., 1., z];
    let m4 = [0., 0., 0., 1., 0., 0., 0., 1., 0., 0., 0., 1.];
    let m5 = [0., 0., 0., 1., 0., 0., 0., 0., 1., 0., 1., 0.];
    let small = f64::from_bits(0x3D95_FD7F_E179_6495);
    vec![
        Unit::Root(2.),
        Unit::Root(f64::from_bits(1)),
        Unit::Root(9.),
        Unit::Root(-0.),
        Unit::Root(-1.),
        Unit::Root(f64::INFINITY),
        Unit::Root(f64::MAX),
        Unit::Determinant(m4),
        Unit::Edges(m4),
        Unit::Score(m4),
        Unit::Determinant(m5),
        Unit::Score(m4.map(|x| 2. * x)),
        Unit::Score(corner(1. / 16.)),
        Unit::Score(corner(1. / 8.)),
        Unit::Score([1.; 12]),
        Unit::Rank(1. / 4096., 0., 1., false),
        Unit::Rank(1., 0., 1., false),
        Unit::Rank(1., 0., 1., true),
        Unit::Rank(small, 0., 1., false),
        Unit::Boundary(vec![[0, 1, 2, 3]]),
        Unit::Boundary(vec![]),
    ]
}
