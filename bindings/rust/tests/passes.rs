//! Document 01's blocks through the safe functions, linked with the built archive.
use halmafir::{ELEMENTS, Field, Mesh, Options, Refusal, boundary, flip, improve, report, smooth};

const M4: [[f64; 3]; 4] = [[0., 0., 0.], [1., 0., 0.], [0., 1., 0.], [0., 0., 1.]];

fn mesh(points: &[[f64; 3]], elements: &[[u32; 4]]) -> Mesh {
    Mesh {
        parameters: points.to_vec(),
        points: points.to_vec(),
        masks: vec![0; points.len()],
        elements: elements.to_vec(),
        surface: boundary(elements).unwrap_or_default(),
    }
}

fn m4() -> Mesh {
    mesh(&M4, &[[0, 1, 2, 3]])
}

fn cube(lo: f64, hi: f64, cells: u32) -> Options {
    let fields = vec![Field::level(0.5)];
    Options { lo: [lo; 3], hi: [hi; 3], cells: [cells; 3], periodic: 0, passes: 1, fields }
}

/// Each pass refuses the mesh with the number and leave it as it was.
fn refused(number: u32, mesh: &Mesh, options: &Options) {
    let mut got = mesh.clone();
    assert_eq!(improve(&mut got, options), Err(Refusal(number)));
    same(&got, mesh);
    assert_eq!(smooth(&mut got, options, None), Err(Refusal(number)));
    same(&got, mesh);
    assert_eq!(flip(&mut got, options), Err(Refusal(number)));
    same(&got, mesh);
}

/// Equal, where a NaN equals a NaN.
fn same(a: &Mesh, b: &Mesh) {
    assert_eq!(format!("{a:?}"), format!("{b:?}"));
}

#[test]
fn m4_is_left_alone() {
    let mut got = m4();
    assert_eq!(got.surface, [[0, 1, 3], [0, 2, 1], [0, 3, 2], [1, 2, 3]]);
    assert_eq!(improve(&mut got, &cube(0., 1., 1)), Ok(0));
    same(&got, &m4());
    assert_eq!(smooth(&mut got, &cube(0., 1., 1), None), Ok(0));
    same(&got, &m4());
}

#[test]
fn an_empty_mesh_gives_0() {
    let mut got = Mesh::default();
    assert_eq!(improve(&mut got, &cube(0., 1., 1)), Ok(0));
    assert_eq!(smooth(&mut got, &cube(0., 1., 1), None), Ok(0));
    same(&got, &Mesh::default());
    assert_eq!(boundary(&[]), Ok(vec![]));
}

/// An edge of length x in a thin element, spacing 1: tried only if shorter than 0.75.
fn short_edge(x: f64) -> Mesh {
    let points = [[0., 0., 0.], [16., 0., 0.], [0., 16., 0.], [0., 0., 16.], [x, 0., 0.]];
    mesh(&points, &[[4, 1, 2, 3], [0, 4, 2, 3]])
}

#[test]
fn improve_collapses_a_short_edge() {
    let options = cube(-100., 100., 200);
    let mut got = short_edge(0.75);
    assert_eq!(improve(&mut got, &options), Ok(0));
    assert_eq!(got.elements.len(), 2);

    let mut got = short_edge(0.75f64.next_down());
    assert_eq!(improve(&mut got, &options), Ok(1));
    assert_eq!(got.elements, [[0, 1, 2, 3]]);
    assert_eq!((got.points.len(), got.masks.len(), got.surface.len()), (4, 4, 4));
    assert_eq!(got.surface, boundary(&got.elements).unwrap());
}

fn flat() -> Mesh {
    mesh(&[[0., 0., 0.], [1., 0., 0.], [0., 1., 0.], [1., 1., 0.0625]], &[[0, 1, 2, 3]])
}

#[test]
fn smooth_moves_a_vertex() {
    let mut got = flat();
    let count = smooth(&mut got, &cube(-4., 4., 8), None).unwrap();
    let moved = (0..4).filter(|&v| got.points[v] != flat().points[v]).count();
    assert!(count > 0);
    assert_eq!(moved, count);
    assert_eq!(got.parameters, got.points);
    assert_eq!((got.elements, got.surface), (flat().elements, flat().surface));
}

#[test]
fn no_list_and_an_empty_list_differ() {
    // The vertices lie on the planes x = 0 and x = 1, and between them is inside.
    let mut options = cube(-4., 4., 8);
    options.fields = vec![Field::plane([-1., 0., 0.], 0.), Field::plane([1., 0., 0.], -1.)];
    let start = Mesh { masks: vec![1, 2, 1, 2], ..flat() };
    let count = |regions| smooth(&mut start.clone(), &options, regions).unwrap();
    assert!(count(None) > 0);
    assert_eq!(count(Some(&[])), 0);
    assert_eq!(count(Some(&[3])), count(None));
}

#[test]
fn refusals_leave_the_mesh() {
    let options = cube(0., 1., 1);
    refused(10, &Mesh { masks: vec![0; 3], ..m4() }, &options);
    refused(10, &Mesh { surface: vec![[0, 1, 2]; 5], ..m4() }, &options);
    refused(10, &Mesh { elements: vec![[0, 1, 2, 3]; ELEMENTS + 1], ..m4() }, &options);
    refused(10, &mesh(&[[0.; 3]; 4097], &[]), &options);
    refused(11, &m4(), &cube(0., 0., 1));
    refused(11, &m4(), &cube(0., f64::NAN, 1));
    refused(11, &m4(), &cube(0., 1., 0));
    refused(11, &m4(), &Options { periodic: 8, ..options.clone() });
    refused(11, &m4(), &Options { passes: 17, ..options.clone() });
    let mut far = m4();
    far.points[1][0] = 1_048_576f64.next_up();
    refused(12, &far, &options);
    refused(12, &m4(), &cube(0., 0.5, 1));
    refused(13, &mesh(&M4, &[[0, 1, 2, 4]]), &options);
    refused(13, &mesh(&M4, &[[0, 1, 2, 2]]), &options);
    refused(14, &mesh(&M4, &[[0, 1, 2, 3], [1, 2, 0, 3]]), &options);
    refused(15, &mesh(&M4, &[[0, 1, 3, 2]]), &options);
}

#[test]
fn faces_are_refused_by_the_first_bad_key() {
    // Three elements on the face 0 1 2; two on it from the same side.
    assert_eq!(boundary(&[[0, 1, 2, 3], [0, 1, 2, 4], [0, 1, 2, 5]]), Err(Refusal(16)));
    assert_eq!(boundary(&[[0, 1, 2, 3], [0, 1, 2, 4]]), Err(Refusal(17)));
    assert_eq!(boundary(&vec![[0, 1, 2, 3]; ELEMENTS + 1]), Err(Refusal(10)));
    let points = [M4[0], M4[1], M4[2], M4[3], [0., 0., 2.], [0., 0., 3.]];
    let options = cube(0., 4., 1);
    refused(17, &mesh(&points, &[[0, 1, 2, 3], [0, 1, 2, 4]]), &options);
    refused(16, &mesh(&points, &[[0, 1, 2, 3], [0, 1, 2, 4], [0, 1, 2, 5]]), &options);
}

#[test]
fn two_elements_at_one_vertex_give_22() {
    let minus = |p: [f64; 3]| p.map(|x| 0. - x);
    let points = [M4[0], M4[1], M4[2], M4[3], minus(M4[1]), minus(M4[2]), minus(M4[3])];
    let start = mesh(&points, &[[0, 1, 2, 3], [0, 4, 6, 5]]);
    let mut got = start.clone();
    assert_eq!(improve(&mut got, &cube(-4., 4., 8)), Err(Refusal(22)));
    same(&got, &start);
}

#[test]
fn an_unknown_kind_gives_11() {
    let with = |fields: Vec<Field>| Options { fields, ..cube(0., 1., 1) };
    for kind in [3, 4, 255, u32::MAX] {
        let unknown = Field { kind, numbers: [0.; 4] };
        refused(11, &m4(), &with(vec![unknown]));
        refused(11, &m4(), &with(vec![Field::level(0.), Field::ball([0.; 3], 1.), unknown]));
        // 10 comes first, and 11 before 12.
        refused(10, &Mesh { masks: vec![], ..m4() }, &with(vec![unknown]));
        let mut far = m4();
        far.points[0][0] = f64::NAN;
        refused(11, &far, &with(vec![unknown]));
    }
}

#[test]
fn eight_fields_pass_and_nine_give_11() {
    let all = [Field::level(0.), Field::plane([0., 0., 1.], 2.), Field::ball([0.; 3], 1.)];
    let with = |n| Options { fields: all.into_iter().cycle().take(n).collect(), ..cube(0., 1., 1) };
    assert_eq!(improve(&mut m4(), &with(8)), Ok(0));
    refused(11, &m4(), &with(9));
    // Numbers that a kind does not use are not looked at.
    let mut options = with(8);
    options.fields[0].numbers[1] = f64::NAN;
    assert_eq!(improve(&mut m4(), &options), Ok(0));
    options.fields[1].numbers[3] = f64::NAN;
    refused(11, &m4(), &options);
}

#[test]
fn a_refusal_says_its_row() {
    assert_eq!(Refusal(15).to_string(), "refused 15: a determinant not above 0");
    assert_eq!(Refusal(30).to_string(), "refused 30: a spare word of a block is not zero");
    for number in [1, 2, 3, 30, 10, 11, 12, 13, 14, 15, 16, 17, 22, 23] {
        assert_ne!(Refusal(number).reason(), Refusal(0).reason());
    }
}

/// Two flat elements on the face 0 1 2, whose apexes are close to its middle.
fn two_on_a_face() -> Mesh {
    let points = [[4., 0., 0.], [-2., 3., 0.], [-2., -3., 0.], [0., 0., 0.25], [0., 0., -0.25]];
    mesh(&points, &[[0, 1, 2, 3], [0, 2, 1, 4]])
}

#[test]
fn flip_makes_three_of_two() {
    let mut mesh = two_on_a_face();
    assert_eq!(flip(&mut mesh, &cube(-8., 8., 1)), Ok(1));
    assert_eq!(mesh.elements.len(), 3);
    assert!(mesh.elements.iter().all(|t| t.contains(&3) && t.contains(&4)));
    assert_eq!(mesh.surface, boundary(&mesh.elements).unwrap());
    assert_eq!(flip(&mut mesh, &cube(-8., 8., 1)), Ok(0));
}

#[test]
fn flip_refuses_another_surface() {
    let mut mesh = two_on_a_face();
    mesh.surface[0] = [0, 1, 2];
    let before = mesh.clone();
    assert_eq!(flip(&mut mesh, &cube(-8., 8., 1)), Err(Refusal(23)));
    same(&mesh, &before);
}

#[test]
fn report_prints_the_sample() {
    let root = concat!(env!("CARGO_MANIFEST_DIR"), "/../..");
    for name in ["m4", "plot"] {
        let file = std::fs::read(format!("{root}/samples/{name}.blocks")).unwrap();
        let table = std::fs::read_to_string(format!("{root}/samples/{name}.table")).unwrap();
        assert_eq!(report(&file), table);
        assert_eq!(report(&file[..file.len() - 1]), "refused 1\n");
    }
    assert_eq!(report(b""), "refused 1\n");
}

#[test]
fn report_refuses_leftovers() {
    let root = concat!(env!("CARGO_MANIFEST_DIR"), "/../..");
    let m4 = std::fs::read(format!("{root}/samples/m4.blocks")).unwrap();
    // What is added to a word is taken off word 127: the block's words still add to 0.
    let changed = |block: usize, word: usize, more: u32| {
        let mut file = m4.clone();
        let at = |i: usize| 512 * block + 4 * i..512 * block + 4 * i + 4;
        let read = |i: usize| u32::from_le_bytes(m4[at(i)].try_into().unwrap());
        file[at(word)].copy_from_slice(&read(word).wrapping_add(more).to_le_bytes());
        file[at(127)].copy_from_slice(&read(127).wrapping_sub(more).to_le_bytes());
        report(&file)
    };
    for (block, word) in [(0, 26), (0, 31), (0, 32), (0, 94), (0, 95), (0, 126), (1, 55), (2, 7)] {
        assert_eq!(changed(block, word, 1), "refused 30\n");
        assert_eq!(changed(block, word, 1 << 31), "refused 30\n");
    }
    assert_eq!(changed(2, 6, 1), "refused 13\n");
    assert_eq!(changed(0, 2, 1), "refused 3\n");
}
