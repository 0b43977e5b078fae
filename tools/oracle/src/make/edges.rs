//! The edges that the papers name and the tests that decide alone, as calls on small meshes: box of
//! side 200, h = 1. The buffers are a little longer than the table asks, the work slices are not.
use super::papers::TOUCHING;
use crate::case::Case;
use crate::mesh::{Call, Mesh, PASSES, Pass, Sizes};
use crate::original::Point;

fn mesh(points: &[Point], tets: &[[u32; 4]], triples: &[[u32; 3]]) -> Mesh {
    let sizes = Sizes { vertices: points.len(), elements: tets.len(), triples: triples.len() };
    let mut mesh = Mesh {
        sizes,
        parameters: points.concat(),
        points: points.concat(),
        masks: vec![0; sizes.vertices + 1],
        elements: tets.concat(),
        surface: triples.concat(),
    };
    mesh.parameters.resize(3 * sizes.vertices + 3, 9.);
    mesh.points.resize(3 * sizes.vertices + 3, 9.);
    mesh.elements.resize(8 * sizes.elements + 2, 77);
    mesh.surface.resize(12 * sizes.elements + 2, 55);
    mesh
}

fn call(pass: Pass, sizes: Sizes) -> Call {
    Call {
        pass,
        bounds: [-100., 100., -100., 100., -100., 100.],
        cells: [200; 3],
        periodic: 0,
        passes: 1,
        field_count: 0,
        fields: Vec::new(),
        regions: None,
        words: 256 * sizes.elements + 32 * sizes.vertices + 1024,
        floats: 16 * sizes.vertices,
    }
}

fn case(name: &str, mesh: Mesh, calls: Vec<Call>) -> Case {
    Case { name: name.to_string(), mesh, calls, answers: Vec::new() }
}

fn each_pass(name: &str, mesh: Mesh) -> Case {
    let calls = PASSES.iter().map(|&pass| call(pass, mesh.sizes)).collect();
    case(name, mesh, calls)
}

/// `smooth` on a corner of side 4, cut into four at a vertex close to its face 0 1 2. A field is the
/// level through that vertex, which is on it. No triple given is of the boundary.
fn corner(name: &str, fields: Vec<(u32, [f64; 4])>, regions: Option<Vec<u32>>) -> Case {
    let points = [[0., 0., 0.], [4., 0., 0.], [0., 4., 0.], [0., 0., 4.], [1., 1., 0.0625]];
    let tets = [[4, 1, 2, 3], [0, 4, 2, 3], [0, 1, 4, 3], [0, 1, 2, 4]];
    let mut mesh = mesh(&points, &tets, &[[5; 3]; 4]);
    mesh.masks[4] = 1;
    let plain = call(Pass::Smooth, mesh.sizes);
    let call = Call { field_count: fields.len() as u32, fields, regions, ..plain };
    case(name, mesh, vec![call])
}

/// `flip`; the triples given stand in another order than a call that is not refused writes.
fn flip(name: &str, points: &[Point], tets: &[[u32; 4]], triples: &[[u32; 3]]) -> Case {
    let mut mesh = mesh(points, tets, triples);
    mesh.masks.fill(6);
    let calls = vec![call(Pass::Flip, mesh.sizes)];
    case(name, mesh, calls)
}

const ON_FACE: [[u32; 4]; 2] = [[0, 1, 2, 3], [0, 2, 1, 4]];
const AROUND: [[u32; 4]; 3] = [[4, 3, 0, 1], [4, 3, 1, 2], [4, 3, 2, 0]];

/// The triangle 0 1 2, and the vertices 3 and 4 on its two sides.
fn pair(z: f64) -> [Point; 5] {
    [[4., 0., 0.], [-2., 3., 0.], [-2., -3., 0.], [0., 0., z], [0., 0., -z]]
}

/// The triples of a triangle's edges with 3 and with 4.
fn sides([u, v, w]: [u32; 3]) -> [[u32; 3]; 6] {
    [[3, u, v], [3, u, w], [3, v, w], [4, u, v], [4, u, w], [4, v, w]]
}

/// Where `flip` makes flips.
fn flips() -> Vec<Case> {
    let six = sides([0, 1, 2]);
    let ring =
        [[-2., -1., 2.], [0., 3., 1.], [-1., 0., 1.], [1., -1., 0.], [3., 2., -3.], [-2., 0., 1.]];
    let about_edge = [[0, 1, 3, 4], [0, 3, 5, 4], [0, 1, 4, 2], [0, 2, 4, 5]];
    let ends = |v| [[v, 1, 2], [v, 1, 3], [v, 2, 5], [v, 3, 5]];
    let two_pairs = [pair(0.25).as_slice(), &[[-4., 0., 0.], [2., -3., 0.], [2., 3., 0.]]].concat();
    let both = [ON_FACE, [[5, 6, 7, 3], [5, 7, 6, 4]]].concat();
    vec![
        // two flat elements on a face
        flip("flip-two-to-three", &pair(0.25), &ON_FACE, &six),
        // three long elements around an edge
        flip("flip-three-to-two", &pair(24.), &AROUND, &six),
        // two pairs of flat elements that would make the same edge: one does
        flip("flip-same-edge", &two_pairs, &both, &[six, sides([5, 6, 7])].concat()),
        // four elements around an edge: a two-to-three makes an element that a three-to-two replaces
        flip("flip-made-and-replaced", &ring, &about_edge, &[ends(0), ends(4)].concat()),
    ]
}

/// Where one test alone refuses a flip, or the call.
fn refused_flips() -> Vec<Case> {
    let six = sides([0, 1, 2]);
    let mut wrong = six;
    wrong[5] = [0, 1, 2];
    let apart = [[-1., -2., -3.], [-1., 0., 0.], [-2., 0., 3.], [0., 0., 0.], [0., 4., 0.]];
    let mut aside = pair(0.25);
    aside[3] = [0., 1., 0.25];
    aside[4] = [-1., 0., -0.125];
    let faces = |[a, b, c, d]: [u32; 4]| [[a, b, c], [a, b, d], [a, c, d], [b, c, d]];
    let with_fourth = [pair(24.).as_slice(), &[[0., 0., 10.]]].concat();
    let four = [AROUND.as_slice(), &[[0, 1, 2, 5]]].concat();
    let ten = [six.as_slice(), &faces([0, 1, 2, 5])].concat();
    let eight = [faces([0, 1, 2, 3]), faces([0, 4, 5, 6])].concat();
    vec![
        // as flip-two-to-three, with a surface that is wrong in one triple
        flip("flip-wrong-triple", &pair(0.25), &ON_FACE, &wrong),
        // two elements whose new ones have another volume
        flip("flip-other-volume", &apart, &ON_FACE, &six),
        // two elements that meet in one vertex, none bad
        flip("flip-touching", &TOUCHING, &[[0, 1, 2, 3], [0, 4, 6, 5]], &eight),
        // as flip-two-to-three, but not bad
        flip("flip-not-bad", &pair(0.5), &ON_FACE, &six),
        // three flat elements around an edge: the lowest score would fall
        flip("flip-lower-score", &pair(0.125), &AROUND, &six),
        // two elements on a face: more would be bad
        flip("flip-more-bad", &aside, &ON_FACE, &six),
        // as flip-three-to-two, with an element on the face that would be made
        flip("flip-face-taken", &with_fourth, &four, &ten),
    ]
}

pub fn cases() -> Vec<Case> {
    let level = || vec![(0, [0.0625, 0., 0., 0.])];
    let touching = mesh(&TOUCHING, &[[0, 1, 2, 3], [0, 4, 6, 5]], &[[5; 3]; 8]);
    let mut all = vec![
        each_pass("empty-spare", mesh(&[], &[], &[])),
        each_pass("touching-wrong-surface", touching),
        corner("corner", Vec::new(), None),
        corner("corner-level", level(), None),
        corner("corner-level-empty-list", level(), Some(Vec::new())),
        corner("corner-level-one-region", level(), Some(vec![1])),
    ];
    all.extend(flips());
    all.extend(refused_flips());
    all
}
