//! The tokens of a line, taken from the left as numbers of a type or octets.
//! Every taking answers none where the line is no call.

use crate::engine::message::PortIdentity;

/// The greatest count that a line may give.
const GREATEST_COUNT: u64 = 400;

/// What is left of a line; none once its last token has been taken.
pub struct Tokens<'a> {
    rest: Option<&'a [u8]>,
}

impl<'a> Tokens<'a> {
    /// The tokens of a line.
    pub fn of(line: &'a [u8]) -> Tokens<'a> {
        Tokens { rest: Some(line) }
    }

    /// The next token: all up to one blank or the line's end.
    pub fn word(&mut self) -> Option<&'a [u8]> {
        let rest = self.rest?;
        let blank = rest.iter().position(|&character| character == b' ');
        let (word, after) = match blank {
            Some(at) => (&rest[..at], Some(&rest[at + 1..])),
            None => (rest, None),
        };
        self.rest = after;
        Some(word)
    }

    /// Something, exactly where no token is left.
    pub fn end(&self) -> Option<()> {
        self.rest.is_none().then_some(())
    }

    /// A number that the type `N` holds.
    pub fn number<N: TryFrom<i128>>(&mut self) -> Option<N> {
        N::try_from(number(self.word()?)?).ok()
    }

    /// The count of what follows.
    pub fn count(&mut self) -> Option<u64> {
        self.number().filter(|&count| count <= GREATEST_COUNT)
    }

    /// A number that is 0 or 1.
    pub fn flag(&mut self) -> Option<bool> {
        match self.number::<u64>()? {
            0 => Some(false),
            1 => Some(true),
            _ => None,
        }
    }

    /// A clock, then a port.
    pub fn identity(&mut self) -> Option<PortIdentity> {
        Some(PortIdentity {
            clock: self.number()?,
            port: self.number()?,
        })
    }

    /// Octets as pairs of hexadecimal digits, or `-` for none.
    pub fn octets(&mut self) -> Option<Vec<u8>> {
        octets(self.word()?)
    }
}

/// The number a token spells: decimal digits, with `-` before them where it is
/// negative, or `0x` and hexadecimal digits.
fn number(word: &[u8]) -> Option<i128> {
    if let Some(digits) = word.strip_prefix(b"0x") {
        magnitude(digits, 16)
    } else if let Some(digits) = word.strip_prefix(b"-") {
        magnitude(digits, 10).map(|value| -value)
    } else {
        magnitude(word, 10)
    }
}

/// The value of one or more digits; none also where it passes 64 bits, which
/// no type holds.
fn magnitude(digits: &[u8], base: u32) -> Option<i128> {
    if digits.is_empty() {
        return None;
    }
    let mut value: i128 = 0;
    for &digit in digits {
        value = value * i128::from(base) + i128::from(char::from(digit).to_digit(base)?);
        if value > i128::from(u64::MAX) {
            return None;
        }
    }
    Some(value)
}

/// The octets a token spells.
fn octets(word: &[u8]) -> Option<Vec<u8>> {
    if word == b"-" {
        return Some(Vec::new());
    }
    if word.is_empty() || word.len() % 2 == 1 {
        return None;
    }
    word.chunks_exact(2)
        .map(|pair| Some(hex_digit(pair[0])? << 4 | hex_digit(pair[1])?))
        .collect()
}

/// The value of a hexadecimal digit of either case.
fn hex_digit(character: u8) -> Option<u8> {
    match character {
        b'0'..=b'9' => Some(character - b'0'),
        b'a'..=b'f' => Some(character - b'a' + 10),
        b'A'..=b'F' => Some(character - b'A' + 10),
        _ => None,
    }
}

#[cfg(test)]
mod tests {
    use super::*;

    /// The number a line of one token gives.
    fn one<N: TryFrom<i128>>(line: &str) -> Option<N> {
        let mut tokens = Tokens::of(line.as_bytes());
        let value = tokens.number();
        tokens.end()?;
        value
    }

    #[test]
    fn numbers_as_the_protocol_spells_them() {
        assert_eq!(one::<u8>("255"), Some(255));
        assert_eq!(one::<u8>("0xFf"), Some(255));
        assert_eq!(one::<u8>("-0"), Some(0));
        assert_eq!(
            one::<u8>("000000000000000000000000000000000000000000000007"),
            Some(7)
        );
        assert_eq!(
            one::<u8>("0x0000000000000000000000000000000000000000000007"),
            Some(7)
        );
        assert_eq!(one::<i8>("-128"), Some(-128));
        assert_eq!(one::<i64>("-9223372036854775808"), Some(i64::MIN));
        assert_eq!(one::<u64>("0xffffffffffffffff"), Some(u64::MAX));
    }

    #[test]
    fn numbers_that_make_a_bad_line() {
        for line in [
            "", "-", "+1", "0x", "-0x1", "-0x0", "0X1", "1.", "--1", "0xg", " 1", "1 ",
        ] {
            assert_eq!(one::<i64>(line), None, "{line:?}");
        }
        assert_eq!(one::<u8>("256"), None);
        assert_eq!(one::<u8>("-1"), None);
        assert_eq!(one::<i8>("0xff"), None);
        assert_eq!(one::<i64>("0x8000000000000000"), None);
        assert_eq!(one::<u64>("18446744073709551616"), None);
    }

    #[test]
    fn counts_up_to_the_greatest() {
        let counted = |line: &str| Tokens::of(line.as_bytes()).count();
        assert_eq!(counted("0"), Some(0));
        assert_eq!(counted("0x190"), Some(400));
        for line in ["401", "-1", "18446744073709551615", "", "one"] {
            assert_eq!(counted(line), None, "{line:?}");
        }
    }

    #[test]
    fn octets_as_the_protocol_spells_them() {
        assert_eq!(octets(b"-"), Some(vec![]));
        assert_eq!(octets(b"0aFf"), Some(vec![10, 255]));
        for word in [&b""[..], b"0", b"0x00", b"--", b"0g", b"\0\0", b"00\r"] {
            assert_eq!(octets(word), None, "{word:?}");
        }
    }
}
