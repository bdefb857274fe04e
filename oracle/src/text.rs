//! The text form of cases and answers: see README.md.

/// What the places of a lent buffer hold before the call.
pub const I32_MARKER: i32 = -99999;
pub const BYTE_MARKER: u8 = 0xee;
pub const F64_MARKER: u64 = 0xc0f8_69f0_0000_0000;

/// The longest list of values, the most bytes and the largest room that a case may have.
pub const MOST_VALUES: usize = 16_384;
pub const MOST_BYTES: usize = 65_536;
pub const MOST_ROOM: usize = 65_536;

/// The words of a line, read from the left. Each reader answers `None` where there is no word or
/// it is not of the form.
#[derive(Clone)]
pub struct Words<'a> {
    rest: Option<&'a [u8]>,
}

impl<'a> Words<'a> {
    pub fn of(line: &'a [u8]) -> Self {
        Words { rest: Some(line) }
    }

    pub fn word(&mut self) -> Option<&'a [u8]> {
        let rest = self.rest?;
        let end = rest.iter().position(|&b| b == b' ');
        self.rest = end.map(|end| &rest[end + 1..]);
        Some(&rest[..end.unwrap_or(rest.len())])
    }

    /// Nothing stands behind the last word that was read.
    pub fn end(&self) -> Option<()> {
        self.rest.is_none().then_some(())
    }

    pub fn pattern(&mut self) -> Option<u64> {
        read_pattern(self.word()?)
    }

    pub fn f64(&mut self) -> Option<f64> {
        self.pattern().map(f64::from_bits)
    }

    pub fn i32(&mut self) -> Option<i32> {
        read_i32(self.word()?)
    }

    pub fn i64(&mut self) -> Option<i64> {
        i64::try_from(read_whole(self.word()?)?).ok()
    }

    pub fn usize(&mut self) -> Option<usize> {
        read_usize(self.word()?)
    }

    pub fn room(&mut self) -> Option<usize> {
        self.usize().filter(|&room| room <= MOST_ROOM)
    }

    /// `0` or `1`.
    pub fn bool(&mut self) -> Option<bool> {
        match self.word()? {
            b"0" => Some(false),
            b"1" => Some(true),
            _ => None,
        }
    }

    pub fn bytes(&mut self) -> Option<Vec<u8>> {
        let word = self.word()?;
        if word == b"-" {
            return Some(Vec::new());
        }
        if word.is_empty() || word.len() % 2 != 0 || word.len() > 2 * MOST_BYTES {
            return None;
        }
        let pair = |pair: &[u8]| Some(hex_digit(pair[0])? * 16 + hex_digit(pair[1])?);
        word.chunks_exact(2).map(pair).collect()
    }

    pub fn i32s(&mut self) -> Option<Vec<i32>> {
        read_list(self.word()?, read_i32)
    }

    pub fn f64s(&mut self) -> Option<Vec<f64>> {
        read_list(self.word()?, |word| read_pattern(word).map(f64::from_bits))
    }
}

fn read_list<T>(word: &[u8], read: impl Fn(&[u8]) -> Option<T>) -> Option<Vec<T>> {
    if word == b"-" {
        return Some(Vec::new());
    }
    let values: Vec<T> = word.split(|&b| b == b',').map(read).collect::<Option<_>>()?;
    (values.len() <= MOST_VALUES).then_some(values)
}

fn read_pattern(word: &[u8]) -> Option<u64> {
    if word.len() != 16 {
        return None;
    }
    let add = |value: u64, &b: &u8| Some(value << 4 | u64::from(hex_digit(b)?));
    word.iter().try_fold(0, add)
}

fn read_i32(word: &[u8]) -> Option<i32> {
    i32::try_from(read_whole(word)?).ok()
}

fn read_whole(word: &[u8]) -> Option<i128> {
    match word.strip_prefix(b"-") {
        Some(digits) => read_u64(digits).map(|value| -i128::from(value)),
        None => read_u64(word).map(i128::from),
    }
}

fn read_usize(word: &[u8]) -> Option<usize> {
    usize::try_from(read_u64(word)?).ok()
}

fn read_u64(digits: &[u8]) -> Option<u64> {
    if digits.is_empty() || !digits.iter().all(u8::is_ascii_digit) {
        return None;
    }
    let add = |value: u64, b: &u8| value.checked_mul(10)?.checked_add(u64::from(b - b'0'));
    digits.iter().try_fold(0, add)
}

fn hex_digit(b: u8) -> Option<u8> {
    char::from(b).to_digit(16).map(|digit| digit as u8)
}

/// A line under way, a case or an answer: puts one space between each two words.
pub struct Line<'a> {
    text: &'a mut Vec<u8>,
    start: usize,
}

impl<'a> Line<'a> {
    /// Goes on behind what `text` holds already.
    pub fn at_end_of(text: &'a mut Vec<u8>) -> Self {
        let start = text.len();
        Line { text, start }
    }

    /// Takes back every word.
    pub fn clear(&mut self) -> &mut Self {
        self.text.truncate(self.start);
        self
    }

    fn space(&mut self) {
        if self.text.len() > self.start {
            self.text.push(b' ');
        }
    }

    pub fn word(&mut self, word: &str) -> &mut Self {
        self.space();
        self.text.extend_from_slice(word.as_bytes());
        self
    }

    pub fn number(&mut self, number: impl ToString) -> &mut Self {
        self.word(&number.to_string())
    }

    pub fn bool(&mut self, value: bool) -> &mut Self {
        self.word(if value { "1" } else { "0" })
    }

    pub fn pattern(&mut self, bits: u64) -> &mut Self {
        self.space();
        self.put_hex(bits, 16);
        self
    }

    pub fn f64(&mut self, value: f64) -> &mut Self {
        self.pattern(value.to_bits())
    }

    pub fn bytes(&mut self, bytes: &[u8]) -> &mut Self {
        if bytes.is_empty() {
            return self.word("-");
        }
        self.space();
        for &byte in bytes {
            self.put_hex(u64::from(byte), 2);
        }
        self
    }

    pub fn i32s(&mut self, values: &[i32]) -> &mut Self {
        self.list(values, |line, value| line.text.extend(value.to_string().bytes()))
    }

    pub fn f64s(&mut self, values: &[f64]) -> &mut Self {
        self.list(values, |line, value| line.put_hex(value.to_bits(), 16))
    }

    fn list<T>(&mut self, values: &[T], put: impl Fn(&mut Self, &T)) -> &mut Self {
        if values.is_empty() {
            return self.word("-");
        }
        self.space();
        for (i, value) in values.iter().enumerate() {
            if i > 0 {
                self.text.push(b',');
            }
            put(self, value);
        }
        self
    }

    fn put_hex(&mut self, value: u64, digits: u32) {
        for i in (0..digits).rev() {
            self.text.push(b"0123456789abcdef"[(value >> (4 * i)) as usize % 16]);
        }
    }
}

/// A list of cases, one a line.
#[derive(Default)]
pub struct Cases {
    pub text: Vec<u8>,
}

impl Cases {
    pub fn line(&mut self, line: &str) {
        self.text.extend_from_slice(line.as_bytes());
        self.text.push(b'\n');
    }

    pub fn case(&mut self, write: impl FnOnce(&mut Line)) {
        write(&mut Line::at_end_of(&mut self.text));
        self.text.push(b'\n');
    }
}
