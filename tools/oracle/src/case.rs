//! Case files: a mesh in its buffers, a list of calls, and after each call its answer.
use crate::mesh::{Answer, Call, Mesh, PASSES, Sizes};
use crate::original::Build;
use crate::shell;
use crate::text::{Reader, float, join, list, mask};

#[derive(Clone, Debug)]
pub struct Case {
    pub name: String,
    pub mesh: Mesh,
    pub calls: Vec<Call>,
    /// What each call gave and the mesh after it, where the file says so.
    pub answers: Vec<(Answer, Mesh)>,
}

/// The form of a case, for the head of stored files.
pub const FORM: &str = "\
# Words in fixed order, separated by spaces or line ends; a line that starts with # is skipped.
# Counts and vertex numbers are decimal, masks 8 and floats 16 hexadecimal digits (their bits).
# case NAME
# sizes vertices elements triples
# parameters LENGTH .. points LENGTH .. masks LENGTH .. elements LENGTH .. surface LENGTH ..
#   (whole buffers, longer or shorter than the sizes ask)
# calls COUNT, then for each call:
# call PASS (0 improve, 1 smooth, 2 flip)
# box xlo xhi ylo yhi zlo zhi  cells x y z  periodic BITS  passes N
# fields COUNT, then at most 8 places: KIND and four floats
# regions 0 (none) or regions 1 COUNT masks
# work LENGTH (32-bit words) LENGTH (f64)
# answer 0 COUNT vertices elements triples, or answer NUMBER of the table alone
# after answer 0, for each of the five buffers: its name, how many leading places follow (0: the
#   buffer is as before the call), and those places; all places behind them are as before.
# After answer NUMBER all buffers are as before. Both work slices hold zeros after every call.
";

fn mesh_text(m: &Mesh) -> String {
    let Sizes { vertices, elements, triples } = m.sizes;
    format!("sizes {vertices} {elements} {triples}\n")
        + &list("parameters", &m.parameters, 3, |&x| float(x))
        + &list("points", &m.points, 3, |&x| float(x))
        + &list("masks", &m.masks, 8, |&x| mask(x))
        + &list("elements", &m.elements, 4, u32::to_string)
        + &list("surface", &m.surface, 3, u32::to_string)
}

fn call_text(c: &Call) -> String {
    let mut out = format!("call {}\nbox {}\n", c.pass as usize, join(&c.bounds, |&x| float(x)));
    let cells = join(&c.cells, u32::to_string);
    out += &format!("cells {cells} periodic {} passes {}\n", c.periodic, c.passes);
    out += &format!("fields {}\n", c.field_count);
    for (kind, numbers) in &c.fields {
        out += &format!("{kind} {}\n", join(numbers, |&x| float(x)));
    }
    match &c.regions {
        None => out += "regions 0\n",
        Some(masks) => {
            let words = format!("regions 1 {} {}", masks.len(), join(masks, |&m| mask(m)));
            out += words.trim_end();
            out.push('\n');
        }
    }
    out + &format!("work {} {}\n", c.words, c.floats)
}

/// The leading places of a buffer that a call wrote; none if the buffer is as before.
fn written<T: Clone>(before: &[T], after: &[T], used: usize, same: fn(&T, &T) -> bool) -> Vec<T> {
    let changed = before.iter().zip(after).any(|(x, y)| !same(x, y));
    if changed { after[..used].to_vec() } else { Vec::new() }
}

fn answer_text(before: &Mesh, answer: &Answer, after: &Mesh) -> String {
    let Answer::Done(count, n) = *answer else {
        let Answer::Refused(number) = *answer else { unreachable!() };
        return format!("answer {number}\n");
    };
    let bits = |x: &f64, y: &f64| x.to_bits() == y.to_bits();
    let same = |x: &u32, y: &u32| x == y;
    let parameters = written(&before.parameters, &after.parameters, 3 * n.vertices, bits);
    let points = written(&before.points, &after.points, 3 * n.vertices, bits);
    let masks = written(&before.masks, &after.masks, n.vertices, same);
    let elements = written(&before.elements, &after.elements, 4 * n.elements, same);
    let surface = written(&before.surface, &after.surface, 3 * n.triples, same);
    format!("answer 0 {count} {} {} {}\n", n.vertices, n.elements, n.triples)
        + &list("parameters", &parameters, 3, |&x| float(x))
        + &list("points", &points, 3, |&x| float(x))
        + &list("masks", &masks, 8, |&x| mask(x))
        + &list("elements", &elements, 4, u32::to_string)
        + &list("surface", &surface, 3, u32::to_string)
}

fn read_sizes(r: &mut Reader) -> Result<Sizes, String> {
    let [vertices, elements, triples] = r.numbers()?;
    Ok(Sizes { vertices, elements, triples })
}

fn read_list<T>(
    r: &mut Reader,
    name: &str,
    one: impl FnMut(&mut Reader) -> Result<T, String>,
) -> Result<Vec<T>, String> {
    r.expect(name)?;
    let count = r.number()?;
    r.many(count, one)
}

fn small(r: &mut Reader) -> Result<u32, String> {
    Ok(r.number()? as u32)
}

fn read_mask(r: &mut Reader) -> Result<u32, String> {
    Ok(r.hex()? as u32)
}

fn read_buffers(r: &mut Reader) -> Result<Mesh, String> {
    Ok(Mesh {
        sizes: Sizes::default(),
        parameters: read_list(r, "parameters", |r| r.float())?,
        points: read_list(r, "points", |r| r.float())?,
        masks: read_list(r, "masks", read_mask)?,
        elements: read_list(r, "elements", small)?,
        surface: read_list(r, "surface", small)?,
    })
}

fn read_call(r: &mut Reader) -> Result<Call, String> {
    r.expect("call")?;
    let pass = *PASSES.get(r.number()?).ok_or("call: 0, 1 or 2 expected")?;
    r.expect("box")?;
    let bounds = r.floats()?;
    r.expect("cells")?;
    let cells = r.numbers()?.map(|c: usize| c as u32);
    r.expect("periodic")?;
    let periodic = small(r)?;
    r.expect("passes")?;
    let passes = small(r)?;
    r.expect("fields")?;
    let field_count = small(r)?;
    let fields = r.many(field_count.min(8) as usize, |r| Ok((small(r)?, r.floats()?)))?;
    r.expect("regions")?;
    let regions = match r.number()? {
        0 => None,
        _ => {
            let count = r.number()?;
            Some(r.many(count, read_mask)?)
        }
    };
    r.expect("work")?;
    let [words, floats] = r.numbers()?;
    Ok(Call { pass, bounds, cells, periodic, passes, field_count, fields, regions, words, floats })
}

fn overlay<T: Copy>(buffer: &mut [T], leading: &[T]) {
    buffer[..leading.len()].copy_from_slice(leading);
}

fn read_answer(r: &mut Reader, before: &Mesh) -> Result<(Answer, Mesh), String> {
    r.expect("answer")?;
    let number = r.number()?;
    if number != 0 {
        return Ok((Answer::Refused(number as u32), before.clone()));
    }
    let count = r.number()?;
    let sizes = read_sizes(r)?;
    let written = read_buffers(r)?;
    let mut after = before.clone();
    after.sizes = sizes;
    overlay(&mut after.parameters, &written.parameters);
    overlay(&mut after.points, &written.points);
    overlay(&mut after.masks, &written.masks);
    overlay(&mut after.elements, &written.elements);
    overlay(&mut after.surface, &written.surface);
    Ok((Answer::Done(count, sizes), after))
}

impl Case {
    pub fn read(r: &mut Reader) -> Result<Case, String> {
        r.expect("case")?;
        let name = r.word()?.to_string();
        r.expect("sizes")?;
        let sizes = read_sizes(r)?;
        let mesh = Mesh { sizes, ..read_buffers(r)? };
        r.expect("calls")?;
        let count = r.number()?;
        let mut case = Case { name, mesh, calls: Vec::new(), answers: Vec::new() };
        for _ in 0..count {
            case.calls.push(read_call(r)?);
            if r.peek() == Some("answer") {
                let before = case.answers.last().map_or(&case.mesh, |a| &a.1).clone();
                case.answers.push(read_answer(r, &before)?);
            }
        }
        Ok(case)
    }

    /// The answers of a build, each call on the mesh that the one before it left.
    pub fn answer(&self, build: &Build) -> Vec<(Answer, Mesh)> {
        let mut mesh = self.mesh.clone();
        self.calls.iter().map(|call| (shell::run(build, &mut mesh, call), mesh.clone())).collect()
    }

    pub fn text(&self) -> String {
        let mut out = format!("case {}\n{}", self.name, mesh_text(&self.mesh));
        out += &format!("calls {}\n", self.calls.len());
        let mut before = &self.mesh;
        for (i, call) in self.calls.iter().enumerate() {
            out += &call_text(call);
            if let Some((answer, after)) = self.answers.get(i) {
                out += &answer_text(before, answer, after);
                before = after;
            }
        }
        out
    }
}

/// All cases of a file.
pub fn read_all(text: &str) -> Result<Vec<Case>, String> {
    let mut r = Reader::new(text);
    let mut out = Vec::new();
    while r.peek().is_some() {
        out.push(Case::read(&mut r)?);
    }
    Ok(out)
}
