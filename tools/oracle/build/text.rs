//! Search and replacement in Rust source text. Every search that finds nothing, or more than
//! one place, ends the build.

/// Where the comment, string or character starting at `at` ends; None if none starts there.
pub fn skip(text: &[u8], at: usize) -> Option<usize> {
    let rest = &text[at..];
    if rest.starts_with(b"//") {
        return Some(at + rest.iter().position(|&c| c == b'\n').unwrap_or(rest.len()));
    }
    if rest[0] == b'"' {
        let mut i = 1;
        while rest[i] != b'"' {
            i += if rest[i] == b'\\' { 2 } else { 1 };
        }
        return Some(at + i + 1);
    }
    if rest[0] == b'\'' && rest.len() > 2 {
        if rest[1] == b'\\' {
            return Some(at + 2 + rest[2..].iter().position(|&c| c == b'\'').unwrap() + 1);
        }
        if rest[2] == b'\'' {
            return Some(at + 3);
        }
    }
    None
}

/// The place of the bracket that closes the one at `open`.
pub fn closing(text: &[u8], open: usize) -> usize {
    let mut depth = 0;
    let mut i = open;
    while i < text.len() {
        if let Some(end) = skip(text, i) {
            i = end;
            continue;
        }
        match text[i] {
            b'(' | b'[' | b'{' => depth += 1,
            b')' | b']' | b'}' => {
                depth -= 1;
                if depth == 0 {
                    return i;
                }
            }
            _ => {}
        }
        i += 1;
    }
    panic!("bracket at {open} is never closed");
}

/// The one place where `wanted` stands in `text`.
pub fn once(text: &str, wanted: &str, file: &str) -> usize {
    let found: Vec<_> = text.match_indices(wanted).collect();
    assert!(
        found.len() == 1,
        "{file}: expected exactly once, found {} times: {wanted}",
        found.len()
    );
    found[0].0
}

/// `text` with the one place of `old` replaced.
pub fn replace(text: &str, old: &str, new: &str, file: &str) -> String {
    let at = once(text, old, file);
    format!("{}{new}{}", &text[..at], &text[at + old.len()..])
}

/// The item that starts a line with `head`, through its closing brace.
pub fn item(text: &str, head: &str, file: &str) -> String {
    let at = once(text, &format!("\n{head}"), file) + 1;
    let open = at + text[at..].find('{').expect("item has a body");
    text[at..=closing(text.as_bytes(), open)].to_string() + "\n"
}

/// The statement or line that starts with `head`, through the next `end`.
pub fn through(text: &str, head: &str, end: &str, file: &str) -> String {
    let at = once(text, head, file);
    let len = text[at..].find(end).expect("statement has an end") + end.len();
    text[at..at + len].to_string() + "\n"
}
