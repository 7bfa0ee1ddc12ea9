//! Words of a line: hexadecimal bit patterns and decimal whole numbers, read and written.

const DIGITS: &[u8; 16] = b"0123456789ABCDEF";

/// Why a line was turned away.
pub type Fault = &'static str;

pub const NUMBERS: Fault = "bad numbers";

/// The words of one line, taken from the front.
pub struct Words<'a>(std::str::Split<'a, char>);

impl<'a> Words<'a> {
    pub fn of(line: &'a str) -> Words<'a> {
        Words(line.split(' '))
    }

    pub fn word(&mut self) -> Result<&'a str, Fault> {
        self.0.next().ok_or(NUMBERS)
    }

    /// Whether the next word is `none`.
    pub fn at_none(&self) -> bool {
        self.0.clone().next() == Some("none")
    }

    pub fn end(&mut self) -> Result<(), Fault> {
        self.0.next().map_or(Ok(()), |_| Err(NUMBERS))
    }

    /// A decimal number below 2^32.
    pub fn whole(&mut self) -> Result<usize, Fault> {
        let word = self.word()?;
        if word.is_empty() || word.len() > 10 || !word.bytes().all(|b| b.is_ascii_digit()) {
            return Err(NUMBERS);
        }
        word.parse().ok().filter(|&n: &usize| n < 1 << 32).ok_or(NUMBERS)
    }

    pub fn flag(&mut self) -> Result<bool, Fault> {
        match self.whole()? {
            0 => Ok(false),
            1 => Ok(true),
            _ => Err(NUMBERS),
        }
    }

    pub fn f32(&mut self) -> Result<f32, Fault> {
        bits(self.word()?, 8).map(|b| f32::from_bits(b as u32))
    }

    pub fn f32s<const N: usize>(&mut self) -> Result<[f32; N], Fault> {
        let mut numbers = [0.0; N];
        for number in &mut numbers {
            *number = self.f32()?;
        }
        Ok(numbers)
    }

    pub fn rest_f32(&mut self) -> Result<Vec<f32>, Fault> {
        self.0.by_ref().map(|w| bits(w, 8).map(|b| f32::from_bits(b as u32))).collect()
    }

    pub fn rest_f64(&mut self) -> Result<Vec<f64>, Fault> {
        self.0.by_ref().map(|w| bits(w, 16).map(f64::from_bits)).collect()
    }

    /// Signed decimal numbers of at most 19 digits.
    pub fn rest_i64(&mut self) -> Result<Vec<i64>, Fault> {
        let held = |w: &str| {
            let digits = w.strip_prefix('-').unwrap_or(w);
            digits.len() <= 19 && digits.bytes().all(|b| b.is_ascii_digit())
        };
        self.0.by_ref().map(|w| w.parse().ok().filter(|_| held(w)).ok_or(NUMBERS)).collect()
    }
}

fn bits(word: &str, digits: usize) -> Result<u64, Fault> {
    let digit = |b: u8| matches!(b, b'0'..=b'9' | b'A'..=b'F');
    if word.len() != digits || !word.bytes().all(digit) {
        return Err(NUMBERS);
    }
    u64::from_str_radix(word, 16).map_err(|_| NUMBERS)
}

fn put_bits(out: &mut Vec<u8>, bits: u64, digits: usize) {
    for i in (0..digits).rev() {
        out.push(DIGITS[(bits >> (4 * i)) as usize & 15]);
    }
}

pub fn put_f32(out: &mut Vec<u8>, x: f32) {
    out.push(b' ');
    put_bits(out, if x.is_nan() { 0x7FC0_0000 } else { x.to_bits() as u64 }, 8);
}

pub fn put_f64(out: &mut Vec<u8>, x: f64) {
    put_bits(out, if x.is_nan() { 0x7FF8_0000_0000_0000 } else { x.to_bits() }, 16);
}

pub fn put_f32s(out: &mut Vec<u8>, numbers: &[f32]) {
    for &x in numbers {
        put_f32(out, x);
    }
}

pub fn put_u64(out: &mut Vec<u8>, x: u64) {
    put_bits(out, x, 16);
}

pub fn put_whole(out: &mut Vec<u8>, n: usize) {
    out.push(b' ');
    out.extend(n.to_string().as_bytes());
}
