//! Reading the words of a request line, and writing words of an answer. A word that cannot be read is `None`, and the
//! request with it a bad one.

/// The words of one request that are still to be read.
pub struct Words<'a> {
    rest: Option<&'a [u8]>,
}

impl<'a> Words<'a> {
    pub fn of(line: &'a [u8]) -> Self {
        Self { rest: Some(line) }
    }

    /// The next word: what stands before the next space or the line's end. It may be empty, and then no reader takes it.
    pub fn word(&mut self) -> Option<&'a [u8]> {
        let rest = self.rest?;
        let end = rest.iter().position(|&c| c == b' ');
        self.rest = end.map(|end| &rest[end + 1..]);
        Some(&rest[..end.unwrap_or(rest.len())])
    }

    pub fn bytes(&mut self) -> Option<Vec<u8>> {
        bytes_of(self.word()?)
    }

    /// A number that the Rust's kind of it can hold: a type or page to 255, flags to 65,535, a cap to 2^64 - 1.
    pub fn number<N: TryFrom<u64>>(&mut self) -> Option<N> {
        N::try_from(number_of(self.word()?)?).ok()
    }

    /// The number 0 or 1.
    pub fn bit(&mut self) -> Option<bool> {
        match self.number()? {
            0u8 => Some(false),
            1 => Some(true),
            _ => None,
        }
    }

    pub fn are_all_read(&self) -> bool {
        self.rest.is_none()
    }
}

/// Bytes as a word has them: lower-case hex, `-` for none.
pub fn bytes_of(word: &[u8]) -> Option<Vec<u8>> {
    if word == b"-" {
        return Some(Vec::new());
    }
    // The hex crate reads upper case as well, and the empty word.
    if word.is_empty() || word.iter().any(u8::is_ascii_uppercase) {
        return None;
    }
    hex::decode(word).ok()
}

/// A number as a word has it: one or more decimal digits, to 2^64 - 1; leading zeros do no harm.
pub fn number_of(word: &[u8]) -> Option<u64> {
    if word.is_empty() {
        return None;
    }
    word.iter().try_fold(0u64, |number, digit| match digit {
        b'0'..=b'9' => number.checked_mul(10)?.checked_add(u64::from(digit - b'0')),
        _ => None,
    })
}

/// The word for some bytes.
pub fn bytes_word(bytes: &[u8]) -> String {
    if bytes.is_empty() { "-".to_string() } else { hex::encode(bytes) }
}
