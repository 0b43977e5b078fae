//! The oracle's own trials: document 01's vectors, the text form, the builds beside each other.
use crate::case::{self, Case};
use crate::intake;
use crate::make::{self, Scale, papers, units};
use crate::mesh::{Answer, Mesh};
use crate::original::{self, DOC01, DOC01_COUNTED, UNTOUCHED, UNTOUCHED_COUNTED};
use crate::plot;
use crate::plots;
use crate::random::Random;
use crate::text::Reader;
use crate::unit::{Shape, Unit};
use std::collections::BTreeMap;

fn answered(name: &str) -> Vec<Answer> {
    let case = make::named().into_iter().find(|c| c.name == name).unwrap();
    case.answer(&DOC01).into_iter().map(|a| a.0).collect()
}

fn counts(name: &str) -> Vec<usize> {
    let count = |a: &Answer| match a {
        Answer::Done(count, _) => *count,
        Answer::Refused(n) => 1000 + *n as usize,
    };
    answered(name).iter().map(count).collect()
}

#[test]
fn cases_of_document_01() {
    assert_eq!(counts("m4"), [0, 0, 0]);
    assert_eq!(counts("m5"), [1015, 1015, 1015]);
    assert_eq!(counts("empty"), [0, 0, 0]);
    assert_eq!(counts("touching")[0], 1022);
    assert_eq!(counts("at-limit")[0], 0);
    assert_eq!(counts("over-limit"), [1012, 1012, 1012]);
    assert_eq!(counts("length-0.75h")[0], 0);
    assert_eq!(counts("length-under-0.75h")[0], 1);
    assert_eq!(counts("folded"), [1017]);
    assert_eq!(counts("passes-17"), [1011, 1011, 1011]);
}

#[test]
fn edges_as_calls() {
    assert_eq!(counts("empty-spare"), [0, 0, 0]);
    assert_eq!(counts("touching-wrong-surface"), [1022, 0, 1023]);
    assert_eq!(counts("corner"), [3]);
    assert_eq!(counts("corner-level"), [4]);
    assert_eq!(counts("corner-level-empty-list"), [3]);
    assert_eq!(counts("corner-level-one-region"), [4]);
    assert_eq!(counts("flip-two-to-three"), [1]);
    assert_eq!(counts("flip-three-to-two"), [1]);
    assert_eq!(counts("flip-same-edge"), [1]);
    assert_eq!(counts("flip-made-and-replaced"), [2]);
    assert_eq!(counts("flip-wrong-triple"), [1023]);
    for name in ["other-volume", "touching", "not-bad", "lower-score", "more-bad", "face-taken"] {
        assert_eq!(counts(&format!("flip-{name}")), [0]);
    }
}

#[test]
fn units_of_document_01() {
    let answers: Vec<_> = papers::units().iter().map(|u| u.answer(&DOC01)).collect();
    assert_eq!(answers[0], "3FF6A09E667F3BCD");
    assert_eq!(f64::from_bits(u64::from_str_radix(&answers[1], 16).unwrap()), 2f64.powi(-537));
    assert!(answers.contains(&"24414063".to_string()));
    assert!(answers.contains(&"100000000000".to_string()));
    assert!(answers.contains(&"0 4 0 1 3 0 2 1 0 3 2 1 2 3".to_string()));
    let score = |z: f64| (DOC01.score)([[0., 0., 0.], [1., 0., 0.], [0., 1., 0.], [1., 1., z]]);
    assert!(score(1. / 16.) < 0.1 && score(1. / 8.) >= 0.1);
}

#[test]
fn text_is_read_back() {
    for seed in 0..300 {
        let mut case = make::case(seed, Scale::Small);
        case.answers = case.answer(&DOC01);
        let text = case.text();
        let again = case::read_all(&text).unwrap();
        assert_eq!(again.len(), 1);
        assert_eq!(again[0].text(), text);
    }
    let mut r = Random::new(1);
    for name in units::names() {
        let line = units::unit(name, &mut r).line(&DOC01);
        let again = Unit::read(&mut Reader::new(&line)).unwrap();
        assert_eq!(again.line(&DOC01), line);
    }
}

#[test]
fn boundary_of_intake_is_the_originals() {
    let mut r = Random::new(2);
    for _ in 0..3000 {
        let Unit::Boundary(tets) = units::unit("boundary", &mut r) else { unreachable!() };
        let original = original::boundary(&tets)
            .map_err(|message| if message.starts_with("nonmanifold") { 16 } else { 17 });
        assert_eq!(intake::boundary(&tets), original);
    }
}

#[test]
fn counters_change_nothing() {
    let text = |case: &Case, build| {
        let mut case = case.clone();
        case.answers = case.answer(build);
        case.text()
    };
    for seed in 0..500 {
        let case = make::case(seed, Scale::Any);
        assert_eq!(text(&case, &DOC01), text(&case, &DOC01_COUNTED));
        assert_eq!(text(&case, &UNTOUCHED), text(&case, &UNTOUCHED_COUNTED));
    }
}

fn m4() -> Case {
    papers::cases().into_iter().find(|c| c.name == "m4").unwrap()
}

fn m4_file() -> Vec<u8> {
    let m4 = m4();
    plot::write(&m4.calls[0], &m4.mesh)
}

const M4_TABLE: &str = "vertices 4 elements 1\ncollapse 0 move 0 reconnect 0\nlow 0 euler 1\ninside 0 1\nelement 0 1 2 3\n";

#[test]
fn plot_of_document_01() {
    let file = m4_file();
    assert_eq!(plot::plot(&file), M4_TABLE);
    assert_eq!(plot::plot(&file[..file.len() - 1]), "refused 1\n");
    assert_eq!(plot::plot(&[file.as_slice(), &[0]].concat()), "refused 1\n");
    assert_eq!(plot::plot(&[]), "refused 1\n");
    let changed = |i: usize, value: u8, sealed: bool| {
        let mut file = file.clone();
        file[i] = value;
        if sealed {
            plot::seal(&mut file[i / 512 * 512..i / 512 * 512 + 512]);
        }
        plot::plot(&file)
    };
    assert_eq!(changed(12, 5, false), "refused 2\n");
    assert_eq!(changed(0, 2, true), "refused 3\n");
    assert_eq!(changed(12, 25, true), "refused 10\n");
    assert_eq!(changed(4 * 23, 3, true), "refused 11\n");
    assert_eq!(changed(1024 + 12, 4, true), "refused 13\n");
}

/// Words of a block with a value each.
type Edits<'a> = &'a [(usize, usize, u32)];

/// The file with other words (block, word, value), their blocks sealed anew.
fn edited(file: &[u8], edits: Edits) -> Vec<u8> {
    let mut file = file.to_vec();
    for &(k, i, value) in edits {
        file[512 * k + 4 * i..][..4].copy_from_slice(&value.to_le_bytes());
        plot::seal(&mut file[512 * k..512 * (k + 1)]);
    }
    file
}

/// The number for document 01's example with other words, 0 for a table.
fn m4_number(edits: Edits) -> u32 {
    plot::read(&edited(&m4_file(), edits)).err().unwrap_or_default()
}

fn refused(number: u32, file: &[u8]) {
    assert_eq!(plot::plot(file), format!("refused {number}\n"));
}

#[test]
fn leftovers_give_30() {
    for (k, i, value) in [
        (0, 95, 1),
        (0, 126, 0x8000_0000),
        (0, 32, 1),
        (0, 94, 7),
        (0, 26, 1),
        (0, 27, 0x8000_0000),
        (0, 31, 9),
        (0, 22, 0),
        (1, 55, 1),
        (1, 126, 1),
        (2, 7, 4),
        (2, 126, 0x8000_0000),
    ] {
        refused(30, &edited(&m4_file(), &[(k, i, value)]));
    }
    // The last words that records use.
    assert_eq!(plot::plot(&edited(&m4_file(), &[(0, 25, 0x3FF0_0000), (1, 54, 1)])), M4_TABLE);
    refused(13, &edited(&m4_file(), &[(2, 6, 4)]));
}

#[test]
fn a_full_vertex_block_has_spare_words() {
    let mut nine = m4();
    nine.mesh.sizes.vertices = 9;
    nine.mesh.parameters.resize(27, 0.5);
    nine.mesh.points.resize(27, 0.5);
    nine.mesh.masks.resize(9, 0);
    let file = plot::write(&nine.calls[0], &nine.mesh);
    assert_eq!(plot::plot(&file), M4_TABLE);
    assert_eq!(plot::plot(&edited(&file, &[(1, 119, 1)])), M4_TABLE);
    refused(30, &edited(&file, &[(1, 120, 1)]));
    refused(30, &edited(&file, &[(1, 126, 1)]));
}

#[test]
fn unknown_kinds_and_many_fields() {
    assert_eq!(m4_number(&[(0, 23, 3), (0, 26, 1), (0, 31, 9)]), 0);
    refused(11, &edited(&m4_file(), &[(0, 23, 3), (0, 26, 1), (0, 31, 9)]));
    assert_eq!(m4_number(&[(0, 23, 3), (0, 32, 1)]), 30);
    refused(11, &edited(&m4_file(), &[(0, 22, 9)]));
    refused(11, &edited(&m4_file(), &[(0, 22, 9), (0, 86, 2), (0, 87, 5), (0, 94, 5)]));
    assert_eq!(m4_number(&[(0, 22, 9), (0, 94, 5)]), 30);
    assert_eq!(m4_number(&[(0, 22, 9), (0, 95, 5)]), 30);
    assert_eq!(m4_number(&[(0, 22, u32::MAX), (0, 86, 3), (0, 94, 5)]), 0);
}

#[test]
fn leftovers_come_after_3_of_the_same_block() {
    let file = m4_file();
    let mut unsealed = edited(&file, &[(0, 95, 1)]);
    unsealed[508] ^= 1;
    refused(2, &unsealed);
    assert_eq!(m4_number(&[(0, 2, 2), (0, 95, 1)]), 3);
    assert_eq!(m4_number(&[(0, 3, 25)]), 10);
    assert_eq!(m4_number(&[(0, 3, 25), (0, 95, 1)]), 30);
    // A block's before the next block's numbers, whichever they are.
    refused(30, &edited(&file, &[(1, 100, 1)])[..1200]);
    assert_eq!(m4_number(&[(1, 100, 1), (2, 0, 2)]), 30);
    assert_eq!(m4_number(&[(1, 0, 3), (2, 100, 1)]), 3);
    // The last block's before bytes behind it, and all before 11.
    refused(30, &[edited(&file, &[(2, 126, 1)]), vec![0; 3]].concat());
    refused(1, &[file.clone(), vec![0; 3]].concat());
    refused(30, &edited(&file, &[(0, 21, 17), (2, 100, 1)]));
    let header = plot::write(&m4().calls[0], &Mesh::default());
    refused(30, &[edited(&header, &[(0, 126, 1)]), vec![0; 512]].concat());
    refused(1, &[header, vec![0; 512]].concat());
}

/// Each answer to document 01's example with one bit changed in a word 3 to 126 of the block k, 0 for
/// a table, and how often it comes.
fn answers(k: usize, bit: usize) -> Vec<(u32, u32)> {
    let mut times = BTreeMap::new();
    for i in 3..127 {
        let mut file = m4_file();
        file[512 * k + 4 * i + bit / 8] ^= 1 << (bit % 8);
        plot::seal(&mut file[512 * k..512 * (k + 1)]);
        let text = plot::plot(&file);
        let number = text.strip_prefix("refused ").map_or(0, |n| n.trim().parse().unwrap());
        *times.entry(number).or_default() += 1;
    }
    times.into_iter().collect()
}

#[test]
fn each_word_of_the_example() {
    assert_eq!(answers(0, 0), [(0, 11), (1, 1), (3, 1), (11, 3), (12, 6), (30, 102)]);
    assert_eq!(answers(1, 0), [(0, 46), (12, 6), (30, 72)]);
    assert_eq!(answers(2, 0), [(13, 4), (30, 120)]);
    assert_eq!(answers(0, 31), [(0, 8), (10, 2), (11, 10), (12, 3), (30, 101)]);
    assert_eq!(answers(1, 31), [(0, 43), (12, 6), (15, 3), (30, 72)]);
    assert_eq!(answers(2, 31), [(13, 4), (30, 120)]);
}

#[test]
fn block_files_are_read_back() {
    for seed in 0..500 {
        let file = plots::good(seed);
        match plot::read(&file) {
            Ok((call, mesh)) => assert_eq!(plot::write(&call, &mesh), file),
            Err(number) => assert_ne!(number, 30),
        }
    }
}

#[test]
fn nothing_is_left_over_by_the_writer() {
    let case = m4();
    let mut call = case.calls[0].clone();
    call.fields = vec![(0, [0.5, f64::NAN, -0., 2.]), (1, [1.; 4]), (2, [3.; 4])];
    for count in [0, 1, 2, 3, 4, 8, 9, u32::MAX] {
        call.field_count = count;
        let file = plot::write(&call, &case.mesh);
        assert_eq!(file.len(), 3 * 512);
        let (read, _) = plot::read(&file).unwrap();
        assert_eq!(read.field_count, count);
        let kinds: Vec<_> = read.fields.iter().map(|f| f.0).collect();
        assert_eq!(kinds, [0, 1, 2, 0, 0, 0, 0, 0][..8.min(count as usize)]);
    }
}

/// An element with these heights, its parameters the points, as a plot with fields.
fn element(z: [f64; 4], fields: &[Shape]) -> Case {
    let mut case = m4();
    let [a, b, c, d] = z;
    case.mesh.points = vec![0., 0., a, 0.8, 0., b, 0., 0.6, c, 0.8, 0.6, d];
    case.mesh.parameters = case.mesh.points.clone();
    let call = &mut case.calls[0];
    call.bounds = [0., 4., 0., 4., 0., 4.];
    call.field_count = fields.len() as u32;
    call.fields = fields.to_vec();
    case
}

/// The counts of the table's `inside` lines, where no pass changes anything.
fn insides(case: &Case) -> Vec<u32> {
    let text = plot::plot(&plot::write(&case.calls[0], &case.mesh));
    assert!(text.contains("collapse 0 move 0 reconnect 0\n"));
    let inside = |line: &str| line.strip_prefix("inside ")?.split(' ').nth(1)?.parse().ok();
    text.lines().filter_map(inside).collect()
}

/// How many elements are below a level: 0 or 1.
fn below(z: [f64; 4], level: f64) -> u32 {
    insides(&element(z, &[(0, [level, 0., 0., 0.])]))[0]
}

#[test]
fn inside_is_by_the_mean_of_the_points() {
    assert_eq!(insides(&m4()), [1]);
    // The first vertex on the level.
    let z = [0.5, 0.6, 0.7, 1.];
    assert_eq!(below(z, 0.5), 0);
    // The mean on the level, and one unit above it.
    assert_eq!(below([1., 1., 1., 3.], 1.5), 1);
    assert_eq!(below([1., 1., 1., 3.], 1.4999999999999998), 0);
    // The mean on the level by the sum left to right, and above it by others: from the other end and
    // by pairs; the last row by every other order and grouping but those that are the same sum.
    assert_eq!(below([0.85, 0.46, 0.25, 0.16], 0.43), 1);
    assert_eq!(below([0.16, 0.25, 0.46, 0.85], 0.43), 0);
    assert_eq!(below([0.78, 0.08, 0.25, 0.53], 0.41), 1);
    // Parameters below the level, points above it.
    let mut low = element(z, &[(0, [0.5, 0., 0., 0.])]);
    low.mesh.parameters.iter_mut().for_each(|x| *x /= 4.);
    assert_eq!(insides(&low), [0]);
    let plane = (1, [1., 1., 1., -1.4]);
    let [about_mean, about_first] = [(2, [0.4, 0.3, 0.7, 0.1]), (2, [0., 0., 0.5, 0.01])];
    assert_eq!(insides(&element(z, &[plane, about_mean, about_first])), [1, 1, 0]);
}

#[test]
fn plot_of_the_samples() {
    let m4 = include_bytes!("../../../samples/m4.blocks");
    assert_eq!(plot::plot(m4), include_str!("../../../samples/m4.table"));
    let sample = include_bytes!("../../../samples/plot.blocks");
    assert_eq!(plot::plot(sample), include_str!("../../../samples/plot.table"));
}
