//! One crate around the original repair.rs: what it imports, taken from the same commit.
use crate::count::{Counter, Site};
use crate::text::{closing, item, once, replace, through};
use std::path::Path;

const LIB: &str = "lib.rs";
const IMPLICIT: &str = "implicit.rs";
const INTERSECTION: &str = "implicit/intersection.rs";
const REPAIR: &str = "implicit/intersection/repair.rs";

pub struct Source {
    lib: String,
    implicit: String,
    intersection: String,
    repair: String,
}

impl Source {
    pub fn read(docs_src: &Path) -> Self {
        let read = |name: &str| {
            let path = docs_src.join("crates/meshers-core/src").join(name);
            println!("cargo:rerun-if-changed={}", path.display());
            std::fs::read_to_string(&path)
                .unwrap_or_else(|e| panic!("{}: {e}; set DOCS_SRC to docs/src", path.display()))
        };
        Source {
            lib: read(LIB),
            implicit: read(IMPLICIT),
            intersection: read(INTERSECTION),
            repair: read(REPAIR),
        }
    }
}

const HEADER: &str = "\
pub mod implicit;
pub use implicit::intersection::repair::access;
pub mod tet_adapt {
    #[derive(Clone, Copy, Debug)]
    pub struct Options;
}
";

/// Document 01's score: (R x |determinant|) / (L x root of L), and 0 where that divisor is 0.
const SCORE: &str = "\
pub fn score(p: [Point; 4]) -> f64 {
    let edge = |i: usize, j: usize| dot(sub(p[i], p[j]), sub(p[i], p[j]));
    let l = edge(0, 1) + edge(0, 2) + edge(0, 3) + edge(1, 2) + edge(1, 3) + edge(2, 3);
    let divisor = l * l.sqrt();
    if divisor == 0. {
        return 0.;
    }
    (f64::from_bits(0x4034C8DC2E423980) * determinant(p).abs()) / divisor
}
";

fn lib_text(s: &Source) -> String {
    let mut out = String::from(HEADER);
    for line in ["pub type Point", "pub type Tet"] {
        out += &through(&s.lib, line, ";\n", LIB);
    }
    for head in [
        "pub fn sub(",
        "pub fn dot(",
        "pub fn cross(",
        "pub fn norm(",
        "pub fn determinant(",
        "pub fn quality(",
        "pub struct Mesh {",
        "fn tet_faces(",
        "fn face_key(",
        "fn face_parity(",
        "fn boundary(",
    ] {
        out += &item(&s.lib, head, LIB);
    }
    out
}

fn implicit_text(s: &Source) -> String {
    let mut out =
        String::from("pub mod intersection;\nuse crate::Point;\nuse std::collections::HashMap;\n");
    for (derive, head) in [
        ("", "pub trait ScalarField"),
        ("#[derive(Clone, Copy, Debug)]\n", "pub enum Region {"),
        ("#[derive(Clone, Copy, Debug)]\n", "pub struct Options {"),
        ("", "impl Default for Options {"),
        ("", "pub(crate) fn nonmanifold_vertices("),
    ] {
        out += derive;
        out += &item(&s.implicit, head, IMPLICIT);
    }
    out
}

fn intersection_text(s: &Source, length: bool, sites: Option<&mut Vec<Site>>) -> String {
    let file = &s.intersection;
    let mut out = String::from("pub mod repair;\nuse super::{Options, ScalarField};\n");
    out += "use crate::{Mesh, Point, Tet, determinant, dot, norm, quality, sub};\n";
    out += &through(file, "pub type ConstraintMask = u32", ";\n", INTERSECTION);
    out += &through(file, "pub const MAX_CONSTRAINTS", ";\n", INTERSECTION);
    out += &item(file, "pub struct Output {", INTERSECTION);
    out += "#[derive(Default)]\n";
    out += &item(file, "pub struct QualityDiagnostics {", INTERSECTION);
    out += &item(file, "fn field_gradient(", INTERSECTION);
    let mut text = file.clone();
    if length {
        let (old, new) = ("g[0].hypot(g[1]).hypot(g[2])", "dot(*g, *g).sqrt()");
        text = replace(&text, old, new, INTERSECTION);
    }
    if let Some(sites) = sites {
        text = counted(text, "fn project_candidate(", INTERSECTION, sites);
    }
    out + &item(&text, "fn project_candidate(", INTERSECTION)
}

/// `text` with counters in the function that starts with `head`.
fn counted(text: String, head: &str, file: &str, sites: &mut Vec<Site>) -> String {
    let at = once(&text, &format!("\n{head}"), file) + 1;
    let open = at + text[at..].find(" {\n").expect("function has a body") + 1;
    let close = closing(text.as_bytes(), open);
    let name = head.split("fn ").nth(1).unwrap().trim_end_matches('(');
    let mut counter = Counter { function: name, first_line: 1, whole: &text, sites };
    let body = counter.span(open, close);
    format!("{}{body}{}", &text[..open], &text[close..])
}

fn repair_text(s: &Source, score: bool, sites: Option<&mut Vec<Site>>) -> String {
    let mut text = s.repair.clone();
    if score {
        let q = "quality(t.map(|i| points[i])).powf(1.5)";
        text = replace(&text, q, "crate::score(t.map(|i| points[i]))", REPAIR);
        text = replace(&text, "quality(tet).powf(1.5)", "crate::score(tet)", REPAIR);
    }
    if let Some(sites) = sites {
        for head in [
            "pub(super) fn flip(",
            "fn orient_candidates(",
            "pub(super) fn smooth(",
            "pub(super) fn improve(",
            "fn feature_link_ok(",
            "fn link_ok(",
        ] {
            text = counted(text, head, REPAIR, sites);
        }
        text = remember_scores(&text, score);
    }
    text + "\npub mod access;\n"
}

/// Scores go through `counts::value`, so that a trace can show them.
fn remember_scores(text: &str, score: bool) -> String {
    let (q, tet) = if score {
        ("crate::score(t.map(|i| points[i]))", "crate::score(tet)")
    } else {
        ("quality(t.map(|i| points[i])).powf(1.5)", "quality(tet).powf(1.5)")
    };
    let text = replace(text, q, &format!("crate::counts::value({q})"), REPAIR);
    replace(&text, tet, &format!("crate::counts::value({tet})"), REPAIR)
}

fn access_text(s: &Source) -> String {
    let improve = item(&s.repair, "pub(super) fn improve(", REPAIR);
    let at = once(&improve, "let rank = |p: Point| -> [i64; 3] {", REPAIR);
    let open = at + improve[at..].find('{').unwrap();
    let rank = &improve[at..=closing(improve.as_bytes(), open)];
    let spacing = through(&improve, "let h = (0..3)", ";\n", REPAIR);
    let text = include_str!("access.rs");
    text.replace("@RANK@", &format!("{rank};")).replace("@SPACING@", &spacing)
}

fn site_table(sites: &[Site]) -> String {
    let mut out = String::from("/// Function, line, text, two sides.\n");
    out += "pub const SITES: &[(&str, u32, &str, bool)] = &[\n";
    for s in sites {
        out += &format!("    ({:?}, {}, {:?}, {}),\n", s.function, s.line, s.text, s.sides);
    }
    out + "];\n"
}

/// `score` and `length`: which of document 01's two replacements are made.
pub fn write(s: &Source, folder: &Path, [score, length]: [bool; 2], counted: bool) {
    let mut sites = Vec::new();
    let repair = repair_text(s, score, counted.then_some(&mut sites));
    let intersection = intersection_text(s, length, counted.then_some(&mut sites));
    let mut lib = lib_text(s);
    if score {
        lib += SCORE;
    }
    if counted {
        lib += "pub mod counts;\n";
    }
    let put = |name: &str, text: &str| {
        let path = folder.join(name);
        std::fs::create_dir_all(path.parent().unwrap()).unwrap();
        std::fs::write(path, text).unwrap();
    };
    put(LIB, &lib);
    put(IMPLICIT, &implicit_text(s));
    put(INTERSECTION, &intersection);
    put(REPAIR, &repair);
    put("implicit/intersection/repair/access.rs", &access_text(s));
    if counted {
        put("counts.rs", &(include_str!("counts.rs").to_string() + &site_table(&sites)));
    }
}
