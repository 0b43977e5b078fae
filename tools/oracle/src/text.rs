//! Tokens of the text files: words, decimal numbers, masks of 8 or 16 hexadecimal digits and
//! floats as the 16 hexadecimal digits of their bits. A line that starts with # is a comment.

pub struct Reader<'a> {
    tokens: Vec<(&'a str, usize)>,
    at: usize,
}

impl<'a> Reader<'a> {
    pub fn new(text: &'a str) -> Self {
        let lines = text.lines().enumerate().filter(|(_, line)| !line.starts_with('#'));
        let tokens = lines.flat_map(|(n, line)| line.split_whitespace().map(move |t| (t, n + 1)));
        Reader { tokens: tokens.collect(), at: 0 }
    }

    pub fn peek(&self) -> Option<&'a str> {
        self.tokens.get(self.at).map(|t| t.0)
    }

    pub fn word(&mut self) -> Result<&'a str, String> {
        let token = self.tokens.get(self.at).ok_or("the file ends early")?;
        self.at += 1;
        Ok(token.0)
    }

    fn fail<T>(&self, wanted: &str) -> Result<T, String> {
        let (token, line) = self.tokens[self.at - 1];
        Err(format!("line {line}: {wanted} expected, found {token}"))
    }

    pub fn expect(&mut self, wanted: &str) -> Result<(), String> {
        if self.word()? == wanted { Ok(()) } else { self.fail(wanted) }
    }

    pub fn number(&mut self) -> Result<usize, String> {
        self.word()?.parse().or_else(|_| self.fail("a decimal number"))
    }

    pub fn hex(&mut self) -> Result<u64, String> {
        u64::from_str_radix(self.word()?, 16).or_else(|_| self.fail("hexadecimal digits"))
    }

    pub fn float(&mut self) -> Result<f64, String> {
        Ok(f64::from_bits(self.hex()?))
    }

    pub fn floats<const N: usize>(&mut self) -> Result<[f64; N], String> {
        let mut out = [0.; N];
        for x in &mut out {
            *x = self.float()?;
        }
        Ok(out)
    }

    pub fn numbers<const N: usize>(&mut self) -> Result<[usize; N], String> {
        let mut out = [0; N];
        for x in &mut out {
            *x = self.number()?;
        }
        Ok(out)
    }

    pub fn many<T>(
        &mut self,
        count: usize,
        mut one: impl FnMut(&mut Self) -> Result<T, String>,
    ) -> Result<Vec<T>, String> {
        (0..count).map(|_| one(self)).collect()
    }
}

pub fn float(x: f64) -> String {
    format!("{:016X}", x.to_bits())
}

pub fn mask(m: u32) -> String {
    format!("{m:08X}")
}

pub fn stratum(m: u64) -> String {
    format!("{m:016X}")
}

pub fn join<T>(items: &[T], show: impl Fn(&T) -> String) -> String {
    items.iter().map(show).collect::<Vec<_>>().join(" ")
}

/// `name count`, then the values, `width` on a line.
pub fn list<T>(name: &str, items: &[T], width: usize, show: impl Fn(&T) -> String) -> String {
    let mut out = format!("{name} {}\n", items.len());
    for row in items.chunks(width) {
        out += &join(row, &show);
        out.push('\n');
    }
    out
}
