//! Writes and reads the words of the output format.

/// By how much signed numbers are moved up.
const MOVED: i32 = 0x10000;

/// Words of hexadecimal digits, each ended by one byte.
#[derive(Default)]
pub struct Words {
    pub text: Vec<u8>,
}

impl Words {
    pub fn word(&mut self, number: u64) {
        let digits = (64 - number.leading_zeros() as usize).div_ceil(4).max(1);
        for place in (0..digits).rev() {
            self.text.push(b"0123456789abcdef"[(number >> (4 * place)) as usize & 15]);
        }
        self.text.push(b' ');
    }

    /// Any NaN stands for NaN, so all are written alike.
    pub fn float(&mut self, x: f64) {
        self.word(if x.is_nan() { 0x7ff8_0000_0000_0000 } else { x.to_bits() });
    }

    pub fn floats(&mut self, list: &[f64]) {
        list.iter().for_each(|&x| self.float(x));
    }

    /// A count, which is never below 0.
    pub fn count(&mut self, number: i32) {
        self.word(u64::try_from(number).expect("a count"));
    }

    /// A number that may be below 0 is moved up.
    pub fn signed(&mut self, number: i32) {
        self.count(number + MOVED);
    }

    /// 0 if absent: no number that is written lies so low.
    pub fn optional(&mut self, number: Option<i32>) {
        match number {
            None => self.word(0),
            Some(n) => self.signed(n),
        }
    }

    pub fn flag(&mut self, yes: bool) {
        self.word(yes as u64);
    }

    /// Ends the line in place of the last space, so that no word is empty.
    pub fn line(&mut self) {
        if let Some(last) = self.text.last_mut() {
            *last = b'\n';
        }
    }
}

/// Reads the words back, for the pace.
pub struct Reader<'a> {
    words: std::str::SplitAsciiWhitespace<'a>,
}

impl<'a> Reader<'a> {
    pub fn new(text: &'a str) -> Self {
        Self { words: text.split_ascii_whitespace() }
    }

    pub fn word(&mut self) -> u64 {
        let text = self.words.next().expect("the words end too early");
        u64::from_str_radix(text, 16).expect("not a word")
    }

    pub fn size(&mut self) -> usize {
        self.word() as usize
    }

    pub fn count(&mut self) -> i32 {
        self.word() as i32
    }

    pub fn signed(&mut self) -> i32 {
        self.count() - MOVED
    }

    pub fn optional(&mut self) -> Option<i32> {
        match self.count() {
            0 => None,
            n => Some(n - MOVED),
        }
    }

    pub fn float(&mut self) -> f64 {
        f64::from_bits(self.word())
    }

    pub fn floats(&mut self, many: usize) -> Vec<f64> {
        (0..many).map(|_| self.float()).collect()
    }

    pub fn ended(mut self) -> bool {
        self.words.next().is_none()
    }
}
