//! Counters in a copy of the original: each operand of a condition, each `if let`, each predicate
//! of filter, any, all, find and then_some, and each continue, break and return gets a site.
use crate::text::{closing, skip};

/// A counted place: function, line of the original file, text, and whether it has two sides.
pub struct Site {
    pub function: String,
    pub line: usize,
    pub text: String,
    pub sides: bool,
}

pub struct Counter<'a> {
    pub function: &'a str,
    pub first_line: usize,
    pub whole: &'a str,
    pub sites: &'a mut Vec<Site>,
}

const PREDICATES: [&str; 5] = [".filter(|", ".any(|", ".all(|", ".find(|", ".position(|"];
/// Expressions that decide without `if`, and how they are counted.
const DECIDING: [(&str, &str); 8] = [
    ("original[a] == options.bounds[0][a]", "side"),
    ("original[a] == options.bounds[1][a]", "side"),
    ("None\n", "none"),
    ("crate::boundary(&mesh.tets)", "okay"),
    ("f.check()", "okay"),
    ("alive[i]", "side"),
    ("outside(super::ConstraintMask::MAX)", "side"),
    ("quality < 0.1", "side"),
];
const JUMPS: [&str; 3] = ["continue;", "break;", "return "];

impl Counter<'_> {
    /// `self.whole[from..to]` with counters.
    pub fn span(&mut self, from: usize, to: usize) -> String {
        let bytes = self.whole.as_bytes();
        let mut out = String::new();
        let mut i = from;
        while i < to {
            if let Some(end) = skip(bytes, i) {
                out.push_str(&self.whole[i..end]);
                i = end;
                continue;
            }
            i = self
                .jump(i, &mut out)
                .or_else(|| self.condition(i, &mut out))
                .or_else(|| self.predicate(i, &mut out))
                .or_else(|| self.then_some(i, &mut out))
                .or_else(|| self.deciding(i, &mut out))
                .unwrap_or_else(|| {
                    out.push(bytes[i] as char);
                    i + 1
                });
        }
        out
    }

    fn site(&mut self, from: usize, to: usize, sides: bool) -> usize {
        let line = self.first_line + self.whole[..from].matches('\n').count();
        let text = self.whole[from..to].split_whitespace().collect::<Vec<_>>();
        self.sites.push(Site {
            function: self.function.to_string(),
            line,
            text: text.join(" "),
            sides,
        });
        self.sites.len() - 1
    }

    fn starts_word(&self, at: usize, word: &str) -> bool {
        let before = at == 0 || !self.whole.as_bytes()[at - 1].is_ascii_alphanumeric();
        before && self.whole[at..].starts_with(word)
    }

    fn jump(&mut self, at: usize, out: &mut String) -> Option<usize> {
        let word = *JUMPS.iter().find(|w| self.starts_word(at, w))?;
        let end = at + self.whole[at..].find(';')? + 1;
        let id = self.site(at, end, false);
        out.push_str(&format!("crate::counts::hit({id}); {word}"));
        Some(at + word.len())
    }

    /// `if CONDITION {` and `if let PATTERN = OPTION {`.
    fn condition(&mut self, at: usize, out: &mut String) -> Option<usize> {
        if !self.starts_word(at, "if ") {
            return None;
        }
        let from = at + 3;
        let open = self.open_brace(from);
        if let Some(pattern) = self.whole[from..open].strip_prefix("let ") {
            let equals = from + 4 + pattern.find(" = ")? + 3;
            let id = self.site(from, open, true);
            let option = self.span(equals, open);
            let head = &self.whole[from..equals];
            out.push_str(&format!("if {head}crate::counts::some({id}, {option}) "));
        } else {
            let counted = self.operands(from, open);
            out.push_str(&format!("if {counted} "));
        }
        Some(open)
    }

    fn open_brace(&self, from: usize) -> usize {
        let bytes = self.whole.as_bytes();
        let mut i = from;
        while bytes[i] != b'{' {
            i = if matches!(bytes[i], b'(' | b'[') { closing(bytes, i) + 1 } else { i + 1 };
        }
        i
    }

    /// A predicate closure handed to an iterator's method.
    fn predicate(&mut self, at: usize, out: &mut String) -> Option<usize> {
        let head = *PREDICATES.iter().find(|h| self.whole[at..].starts_with(**h))?;
        let open = at + head.len() - 2;
        let bar = open + 2 + self.whole[open + 2..].find('|')?;
        let close = closing(self.whole.as_bytes(), open);
        let lead = self.whole[bar + 1..close].len() - self.whole[bar + 1..close].trim_start().len();
        let mut from = bar + 1 + lead;
        let mut to = close;
        let braced = self.whole.as_bytes()[from] == b'{';
        if braced {
            to = closing(self.whole.as_bytes(), from);
            from += 1;
        }
        let body = self.operands(from, to);
        let body = if braced { format!("{{{body}}}") } else { body };
        out.push_str(&format!("{}{body})", &self.whole[at..bar + 1]));
        Some(close + 1)
    }

    /// `(CONDITION).then_some(`, the condition standing at `at`.
    fn then_some(&mut self, at: usize, out: &mut String) -> Option<usize> {
        if self.whole.as_bytes()[at] != b'(' {
            return None;
        }
        let close = closing(self.whole.as_bytes(), at);
        if !self.whole[close + 1..].trim_start().starts_with(".then_some(") {
            return None;
        }
        let counted = self.operands(at + 1, close);
        out.push_str(&format!("({counted})"));
        Some(close + 1)
    }

    fn deciding(&mut self, at: usize, out: &mut String) -> Option<usize> {
        let (text, kind) = *DECIDING.iter().find(|(t, _)| self.starts_word(at, t))?;
        let end = at + text.len();
        let follows = &self.whole[end..];
        let counts = match text {
            "alive[i]" => follows.starts_with(".then_some("),
            "quality < 0.1" => follows.starts_with(");"),
            _ => true,
        };
        if !counts {
            return None;
        }
        if kind == "none" {
            let id = self.site(at, end, false);
            out.push_str(&format!("crate::counts::none({id})\n"));
            return Some(end);
        }
        let id = self.site(at, end, true);
        out.push_str(&format!("crate::counts::{kind}({id}, {text})"));
        Some(end)
    }

    /// The operands of `&&` and `||` in a condition, each counted on both sides.
    fn operands(&mut self, from: usize, to: usize) -> String {
        let (from, to, lead, tail) = self.trimmed(from, to);
        let bytes = self.whole.as_bytes();
        let mut cuts = Vec::new();
        let mut i = from;
        while i < to {
            if matches!(bytes[i], b'(' | b'[' | b'{') {
                i = closing(bytes, i);
            } else if matches!(&self.whole[i..i + 2], "&&" | "||") {
                cuts.push(i);
                i += 1;
            }
            i += 1;
        }
        if cuts.is_empty() {
            if bytes[from] == b'(' && closing(bytes, from) == to - 1 {
                return format!("{lead}({}){tail}", self.operands(from + 1, to - 1));
            }
            let id = self.site(from, to, true);
            return format!("{lead}crate::counts::side({id}, {}){tail}", self.span(from, to));
        }
        let mut out = lead;
        let mut start = from;
        for cut in cuts {
            out += &self.operands(start, cut);
            out += &self.whole[cut..cut + 2];
            start = cut + 2;
        }
        out + &self.operands(start, to) + &tail
    }

    fn trimmed(&self, from: usize, to: usize) -> (usize, usize, String, String) {
        let text = &self.whole[from..to];
        let start = from + text.len() - text.trim_start().len();
        let end = from + text.trim_end().len();
        (start, end, self.whole[from..start].to_string(), self.whole[end..to].to_string())
    }
}
