//! Units: single functions of the original with their answers, one to a line.
use crate::original::{self, Build, Point, Tet};
use crate::text::{Reader, float, join, stratum};

pub type Shape = (u32, [f64; 4]);

#[derive(Clone, Debug)]
pub enum Unit {
    Root(f64),
    Norm([f64; 3]),
    Determinant([f64; 12]),
    Edges([f64; 12]),
    Score([f64; 12]),
    Spacing([f64; 6], [usize; 3]),
    /// Value, lo, hi, periodic.
    Rank(f64, f64, f64, bool),
    Cap([f64; 6], Point),
    Value(Shape, Point),
    Gradient(Shape, Point),
    /// Box, fields, active fields, origin, candidate.
    Project([f64; 6], Vec<Shape>, Vec<usize>, Point, Point),
    Boundary(Vec<Tet>),
    /// The edge a b, elements, stratum of each vertex.
    Link(usize, usize, Vec<Tet>, Vec<u64>),
    /// The edge a b, boundary faces with a or b, stratum of each vertex.
    Feature(usize, usize, Vec<[usize; 3]>, Vec<u64>),
    /// Number of vertices, surface.
    Nonmanifold(usize, Vec<[usize; 3]>),
}

/// The form of a unit, for the head of stored files.
pub const FORM: &str = "\
# One unit a line: its name, its inputs, its answer, separated by spaces.
# Numbers are decimal, floats and strata 16 hexadecimal digits (a float's bits).
# root x = r | norm x y z = r | determinant, edges (sum of the squared ones), score: 12 floats = r
# spacing xlo xhi ylo yhi zlo zhi cx cy cz = r | rank value lo hi periodic = n
# cap xlo xhi ylo yhi zlo zhi x y z = stratum
# value kind f f f f x y z = r | gradient kind f f f f x y z = gx gy gz
# project box(6) COUNT fields (kind f f f f) COUNT active numbers origin(3) candidate(3) = 0 or 1 x y z
# boundary COUNT elements(4) = 0 COUNT triples(3), or 16, or 17
# link a b COUNT elements(4) COUNT strata = 0 or 1
# feature a b COUNT boundary faces with a or b (3, sorted) COUNT strata = 0 or 1
# nonmanifold VERTICES COUNT triples(3) = COUNT vertex numbers
# The word = stands between input and answer. A NaN answer is any NaN; the two zeros are equal.
";

pub fn corners(p: &[f64; 12]) -> [Point; 4] {
    std::array::from_fn(|v| std::array::from_fn(|a| p[3 * v + a]))
}

pub fn setting(b: &[f64; 6], cells: [usize; 3], periodic: bool) -> doc01::access::Setting {
    ([[b[0], b[2], b[4]], [b[1], b[3], b[5]]], cells, [periodic; 3], 0)
}

/// A float of an answer: every NaN as one.
fn result(x: f64) -> String {
    float(if x.is_nan() { f64::NAN } else { x })
}

fn floats(xs: &[f64]) -> String {
    join(xs, |&x| float(x))
}

fn shape((kind, f): &Shape) -> String {
    format!("{kind} {}", floats(f))
}

/// A count, then the items, all separated by single spaces.
fn counted<T>(items: &[T], show: impl Fn(&T) -> String) -> String {
    format!("{} {}", items.len(), join(items, show)).trim_end().to_string()
}

fn row<const N: usize>(t: &[usize; N]) -> String {
    join(t, usize::to_string)
}

impl Unit {
    pub fn name(&self) -> &'static str {
        match self {
            Unit::Root(_) => "root",
            Unit::Norm(_) => "norm",
            Unit::Determinant(_) => "determinant",
            Unit::Edges(_) => "edges",
            Unit::Score(_) => "score",
            Unit::Spacing(..) => "spacing",
            Unit::Rank(..) => "rank",
            Unit::Cap(..) => "cap",
            Unit::Value(..) => "value",
            Unit::Gradient(..) => "gradient",
            Unit::Project(..) => "project",
            Unit::Boundary(_) => "boundary",
            Unit::Link(..) => "link",
            Unit::Feature(..) => "feature",
            Unit::Nonmanifold(..) => "nonmanifold",
        }
    }

    fn input(&self) -> String {
        match self {
            Unit::Root(x) => float(*x),
            Unit::Norm(p) => floats(p),
            Unit::Determinant(p) | Unit::Edges(p) | Unit::Score(p) => floats(p),
            Unit::Spacing(b, c) => format!("{} {}", floats(b), row(c)),
            Unit::Rank(x, lo, hi, p) => format!("{} {}", floats(&[*x, *lo, *hi]), u32::from(*p)),
            Unit::Cap(b, p) => format!("{} {}", floats(b), floats(p)),
            Unit::Value(f, p) | Unit::Gradient(f, p) => format!("{} {}", shape(f), floats(p)),
            Unit::Project(b, fields, active, origin, candidate) => format!(
                "{} {} {} {} {}",
                floats(b),
                counted(fields, shape),
                counted(active, usize::to_string),
                floats(origin),
                floats(candidate)
            ),
            Unit::Boundary(tets) => counted(tets, row),
            Unit::Link(a, b, tets, strata) => {
                format!("{a} {b} {} {}", counted(tets, row), counted(strata, |&m| stratum(m)))
            }
            Unit::Feature(a, b, faces, strata) => {
                format!("{a} {b} {} {}", counted(faces, row), counted(strata, |&m| stratum(m)))
            }
            Unit::Nonmanifold(n, surface) => format!("{n} {}", counted(surface, row)),
        }
    }

    /// The answer of a build, as text.
    pub fn answer(&self, build: &Build) -> String {
        match self {
            Unit::Root(x) => result(x.sqrt()),
            Unit::Norm(p) => result(original::norm(*p)),
            Unit::Determinant(p) => result(original::determinant(corners(p))),
            Unit::Edges(p) => result(original::squared_edges(corners(p))),
            Unit::Score(p) => result((build.score)(corners(p))),
            Unit::Spacing(b, c) => result(original::spacing(&setting(b, *c, false))),
            Unit::Rank(x, lo, hi, periodic) => {
                let b = [*lo, *hi, 0., 1., 0., 1.];
                original::rank(&setting(&b, [1; 3], *periodic), [*x, 0., 0.])[0].to_string()
            }
            Unit::Cap(b, p) => stratum(original::cap(&setting(b, [1; 3], false), *p)),
            Unit::Value(f, p) => result(original::value(*f, *p)),
            Unit::Gradient(f, p) => floats(&original::gradient(*f, *p)),
            Unit::Project(b, fields, active, origin, candidate) => {
                let s = setting(b, [1; 3], false);
                match (build.project)(&s, fields, active, *origin, *candidate) {
                    Some(p) => format!("1 {}", floats(&p)),
                    None => "0".to_string(),
                }
            }
            _ => self.topology(),
        }
    }

    fn topology(&self) -> String {
        match self {
            Unit::Boundary(tets) => match original::boundary(tets) {
                Ok(surface) => format!("0 {}", counted(&surface, row)),
                Err(message) if message.starts_with("nonmanifold") => "16".to_string(),
                Err(_) => "17".to_string(),
            },
            Unit::Link(a, b, tets, strata) => {
                u32::from(original::link(*a, *b, tets, strata)).to_string()
            }
            Unit::Feature(a, b, faces, strata) => {
                u32::from(original::feature(*a, *b, faces, strata)).to_string()
            }
            Unit::Nonmanifold(n, surface) => {
                counted(&original::nonmanifold(surface, *n), usize::to_string)
            }
            _ => unreachable!("a unit of floats"),
        }
    }

    /// Whether the port takes this input: its link test reads the bits 32 to 37 of a stratum off
    /// the parameters, and no point lies on both faces of a direction.
    #[cfg(feature = "bridge")]
    pub fn fits_port(&self) -> bool {
        let both = |m: &u64| [32, 34, 36].iter().any(|k| m >> k & 3 == 3);
        !matches!(self, Unit::Link(_, _, _, strata) if strata.iter().any(both))
    }

    pub fn line(&self, build: &Build) -> String {
        format!("{} {} = {}\n", self.name(), self.input(), self.answer(build))
    }

    pub fn read(r: &mut Reader) -> Result<Unit, String> {
        Ok(match r.word()? {
            "root" => Unit::Root(r.float()?),
            "norm" => Unit::Norm(r.floats()?),
            "determinant" => Unit::Determinant(r.floats()?),
            "edges" => Unit::Edges(r.floats()?),
            "score" => Unit::Score(r.floats()?),
            "spacing" => Unit::Spacing(r.floats()?, r.numbers()?),
            "rank" => Unit::Rank(r.float()?, r.float()?, r.float()?, r.number()? != 0),
            "cap" => Unit::Cap(r.floats()?, r.floats()?),
            "value" => Unit::Value(read_shape(r)?, r.floats()?),
            "gradient" => Unit::Gradient(read_shape(r)?, r.floats()?),
            "project" => read_project(r)?,
            "boundary" => Unit::Boundary(read_rows(r)?),
            "link" => read_link(r)?,
            "feature" => read_feature(r)?,
            "nonmanifold" => Unit::Nonmanifold(r.number()?, read_rows(r)?),
            other => return Err(format!("unknown unit: {other}")),
        })
    }
}

fn read_shape(r: &mut Reader) -> Result<Shape, String> {
    Ok((r.number()? as u32, r.floats()?))
}

fn read_rows<const N: usize>(r: &mut Reader) -> Result<Vec<[usize; N]>, String> {
    let count = r.number()?;
    r.many(count, |r| r.numbers())
}

fn read_project(r: &mut Reader) -> Result<Unit, String> {
    let bounds = r.floats()?;
    let count = r.number()?;
    let fields = r.many(count, read_shape)?;
    let count = r.number()?;
    let active = r.many(count, |r| r.number())?;
    Ok(Unit::Project(bounds, fields, active, r.floats()?, r.floats()?))
}

fn read_link(r: &mut Reader) -> Result<Unit, String> {
    let [a, b] = r.numbers()?;
    let tets = read_rows(r)?;
    let count = r.number()?;
    Ok(Unit::Link(a, b, tets, r.many(count, |r| r.hex())?))
}

fn read_feature(r: &mut Reader) -> Result<Unit, String> {
    let [a, b] = r.numbers()?;
    let faces = read_rows(r)?;
    let count = r.number()?;
    Ok(Unit::Feature(a, b, faces, r.many(count, |r| r.hex())?))
}

/// The units of a file and the answers that stand there, each a line.
pub fn read_all(text: &str) -> Result<Vec<(Unit, String)>, String> {
    let lines = text.lines().filter(|l| !l.starts_with('#') && !l.trim().is_empty());
    lines
        .map(|line| {
            let (input, answer) = line.split_once(" =").unwrap_or((line, ""));
            let unit = Unit::read(&mut Reader::new(input)).map_err(|e| format!("{e}: {line}"))?;
            Ok((unit, answer.trim().to_string()))
        })
        .collect()
}
