//! The words of a line: bare words, and values after a name and `=`.

/// What is wrong with a line.
pub type Mistake = String;

/// The words that are left of a line.
pub struct Words<'a> {
    left: Vec<&'a str>,
}

impl<'a> Words<'a> {
    pub fn of(line: &'a str) -> Words<'a> {
        Words {
            left: line.split_whitespace().collect(),
        }
    }

    /// Takes the first word.
    pub fn first(&mut self) -> Option<&'a str> {
        (!self.left.is_empty()).then(|| self.left.remove(0))
    }

    /// Takes a bare word, wherever it stands.
    pub fn has(&mut self, name: &str) -> bool {
        let place = self.left.iter().position(|word| *word == name);
        place.map(|at| self.left.remove(at)).is_some()
    }

    /// Takes the value of the first word `name=value`.
    pub fn value(&mut self, name: &str) -> Option<&'a str> {
        let is_it = |word: &&str| matches!(word.split_once('='), Some((n, _)) if n == name);
        let at = self.left.iter().position(is_it)?;
        self.left.remove(at).split_once('=').map(|(_, value)| value)
    }

    /// Takes the number of the first word `name=number`, or gives the usual one.
    pub fn number<T: TryFrom<u64>>(&mut self, name: &str, usual: T) -> Result<T, Mistake> {
        self.value(name).map_or(Ok(usual), number)
    }

    /// The same for a number of so many bits.
    pub fn bits(&mut self, name: &str, usual: u8, width: u32) -> Result<u8, Mistake> {
        let value = self.number(name, usual)?;
        match value >> width {
            0 => Ok(value),
            _ => Err(format!("too large: {name}={value}")),
        }
    }

    /// The same for the length of what stands behind it, in an octet.
    pub fn length(&mut self, name: &str, usual: usize) -> Result<u8, Mistake> {
        let usual = u8::try_from(usual).map_err(|_| format!("too large: {name}={usual}"));
        self.value(name).map_or(usual, number)
    }

    /// Takes all words that are left as octets in hexadecimal.
    pub fn octets(&mut self) -> Result<Vec<u8>, Mistake> {
        octets(&std::mem::take(&mut self.left).concat())
    }

    /// Nothing may be left over.
    pub fn end(self) -> Result<(), Mistake> {
        match self.left.first() {
            None => Ok(()),
            Some(word) => Err(format!("unknown word: {word}")),
        }
    }
}

/// A decimal number, in which commas may stand, or a hexadecimal one after `0x`.
pub fn number<T: TryFrom<u64>>(word: &str) -> Result<T, Mistake> {
    let plain = word.replace(',', "");
    let parsed = match plain.strip_prefix("0x") {
        Some(digits) => u64::from_str_radix(digits, 16),
        None => plain.parse(),
    };
    let value = parsed.map_err(|_| format!("not a number: {word}"))?;
    T::try_from(value).map_err(|_| format!("too large: {word}"))
}

/// Octets written in hexadecimal, two digits each.
pub fn octets(digits: &str) -> Result<Vec<u8>, Mistake> {
    let mistake = || format!("not octets in hexadecimal: {digits}");
    if !digits.bytes().all(|digit| digit.is_ascii_hexdigit()) || digits.len() % 2 != 0 {
        return Err(mistake());
    }
    let pair = |at: usize| u8::from_str_radix(&digits[at..at + 2], 16).map_err(|_| mistake());
    (0..digits.len()).step_by(2).map(pair).collect()
}

/// A number with a comma before every three digits, as a text has it.
pub fn grouped(number: u64) -> String {
    let digits = number.to_string();
    let mut text = String::new();
    for (place, digit) in digits.chars().enumerate() {
        if place > 0 && (digits.len() - place) % 3 == 0 {
            text.push(',');
        }
        text.push(digit);
    }
    text
}
