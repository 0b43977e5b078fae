//! The builds of the original, behind one table of functions.
use doc01::access::{Body, Setting, Shape};

pub type Point = [f64; 3];
pub type Tet = [usize; 4];

pub struct Build {
    pub name: &'static str,
    pub pass: fn(usize, &mut Body, &Setting, &[Shape], Option<&[u32]>) -> Result<usize, String>,
    pub score: fn([Point; 4]) -> f64,
    pub project: fn(&Setting, &[Shape], &[usize], Point, Point) -> Option<Point>,
}

macro_rules! build {
    ($name:ident) => {
        Build {
            name: stringify!($name),
            pass: $name::access::pass,
            score: $name::access::score,
            project: $name::access::project,
        }
    };
}

/// Document 01's score and gradient length in the original: the judge.
pub static DOC01: Build = build!(doc01);
/// The original as published.
pub static UNTOUCHED: Build = build!(untouched);
/// One of document 01's two replacements alone.
pub static SCORE_ONLY: Build = build!(score_only);
pub static LENGTH_ONLY: Build = build!(length_only);
/// The four with counted branches.
pub static DOC01_COUNTED: Build = build!(doc01_counted);
pub static UNTOUCHED_COUNTED: Build = build!(untouched_counted);
pub static SCORE_ONLY_COUNTED: Build = build!(score_only_counted);
pub static LENGTH_ONLY_COUNTED: Build = build!(length_only_counted);

pub fn named(name: &str) -> Option<&'static Build> {
    [&DOC01, &UNTOUCHED].into_iter().find(|b| b.name == name)
}

/// What does not differ between the builds.
pub use doc01::access::{
    boundary, cap, determinant, feature, gradient, link, nonmanifold, norm, rank, spacing,
    squared_edges, value,
};
