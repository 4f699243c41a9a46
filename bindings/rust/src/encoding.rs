//! Texts in other encodings than UTF-8: what one looks like, and what it says as UTF-8. It is read by what the standard library has, and one table.
use std::fmt;
use std::str::FromStr;

/// How the characters of a text are stored.
#[derive(Clone, Copy, Debug, PartialEq, Eq, Hash)]
#[non_exhaustive]
pub enum Encoding {
    /// UTF-8, as the library takes it.
    Utf8,
    /// UTF-16; a mark tells the order of bytes, and without one the least byte comes first.
    Utf16,
    /// UTF-16, the greatest byte first.
    Utf16Be,
    /// UTF-32; a mark tells the order of bytes, and without one the least byte comes first.
    Utf32,
    /// Windows-1252, of Western Europe.
    Windows1252,
    /// ISO 8859-1, Latin-1.
    Latin1,
}

impl Encoding {
    /// All that are read.
    pub const ALL: [Encoding; 6] = [Encoding::Utf8, Encoding::Utf16, Encoding::Utf16Be, Encoding::Utf32, Encoding::Windows1252, Encoding::Latin1];

    /// Its name.
    pub fn name(self) -> &'static str {
        match self {
            Encoding::Utf8 => "utf-8",
            Encoding::Utf16 => "utf-16",
            Encoding::Utf16Be => "utf-16be",
            Encoding::Utf32 => "utf-32",
            Encoding::Windows1252 => "windows-1252",
            Encoding::Latin1 => "iso-8859-1",
        }
    }

    /// What a text looks like that is not UTF-8: told by its mark, or by zeros in every second byte; else by bytes that Windows-1252 does not have.
    ///
    /// ```
    /// use retimer::Encoding;
    /// assert_eq!(Encoding::of(b"\xff\xfe1\0"), Some(Encoding::Utf16));
    /// assert_eq!(Encoding::of(b"\xff\xfe\0\x001\0\0\0"), Some(Encoding::Utf32));
    /// assert_eq!(Encoding::of(b"Caf\xe9"), Some(Encoding::Windows1252));
    /// assert_eq!(Encoding::of(b"\x81\xa0"), None);
    /// ```
    pub fn of(text: &[u8]) -> Option<Encoding> {
        let part = &text[..text.len().min(4_096)];
        let zeros = |from: usize| part.iter().skip(from).step_by(2).filter(|b| **b == 0).count() * 4 > part.len();
        match text {
            [0xFF, 0xFE, 0, 0, ..] | [0, 0, 0xFE, 0xFF, ..] => Some(Encoding::Utf32),
            [0xFF, 0xFE, ..] | [0xFE, 0xFF, ..] => Some(Encoding::Utf16),
            _ if std::str::from_utf8(text).is_ok() => Some(Encoding::Utf8),
            _ if zeros(1) => Some(Encoding::Utf16),
            _ if zeros(0) => Some(Encoding::Utf16Be),
            _ if text.iter().any(|b| [0, 0x81, 0x8D, 0x8F, 0x90, 0x9D].contains(b)) => None,
            _ => Some(Encoding::Windows1252),
        }
    }

    /// The text as UTF-8, without a byte order mark of another encoding; else the first byte that can't be read.
    ///
    /// ```
    /// use retimer::Encoding;
    /// assert_eq!(Encoding::Windows1252.decode(b"\x93Caf\xe9\x94"), Ok("\u{201c}Caf\u{e9}\u{201d}".into()));
    /// assert_eq!(Encoding::Utf16.decode(b"\xfe\xff\0A\xd8\0"), Err(4));
    /// ```
    pub fn decode(self, text: &[u8]) -> Result<Vec<u8>, usize> {
        match self {
            Encoding::Utf8 => std::str::from_utf8(text).map(|t| t.as_bytes().to_vec()).map_err(|e| e.valid_up_to()),
            Encoding::Utf16 => match text {
                [0xFE, 0xFF, ..] => utf16(text, 2, u16::from_be_bytes),
                [0xFF, 0xFE, ..] => utf16(text, 2, u16::from_le_bytes),
                _ => utf16(text, 0, u16::from_le_bytes),
            },
            Encoding::Utf16Be => utf16(text, if text.starts_with(&[0xFE, 0xFF]) { 2 } else { 0 }, u16::from_be_bytes),
            Encoding::Utf32 => match text {
                [0, 0, 0xFE, 0xFF, ..] => utf32(text, 4, u32::from_be_bytes),
                [0xFF, 0xFE, 0, 0, ..] => utf32(text, 4, u32::from_le_bytes),
                _ => utf32(text, 0, u32::from_le_bytes),
            },
            Encoding::Windows1252 => bytes(text, windows_1252),
            Encoding::Latin1 => bytes(text, |b| Some(char::from(b))),
        }
    }
}

fn utf16(text: &[u8], from: usize, unit: fn([u8; 2]) -> u16) -> Result<Vec<u8>, usize> {
    let units = text[from..].chunks_exact(2);
    if !units.remainder().is_empty() {
        return Err(text.len() - 1);
    }
    let (mut read, mut at) = (String::new(), from);
    for c in char::decode_utf16(units.map(|u| unit([u[0], u[1]]))) {
        let c = c.map_err(|_| at)?;
        read.push(c);
        at += 2 * c.len_utf16();
    }
    Ok(read.into_bytes())
}

fn utf32(text: &[u8], from: usize, unit: fn([u8; 4]) -> u32) -> Result<Vec<u8>, usize> {
    let units = text[from..].chunks_exact(4);
    if !units.remainder().is_empty() {
        return Err(text.len() - units.remainder().len());
    }
    let read = units.enumerate().map(|(k, u)| char::from_u32(unit([u[0], u[1], u[2], u[3]])).ok_or(from + 4 * k));
    read.collect::<Result<String, usize>>().map(String::into_bytes)
}

fn bytes(text: &[u8], of: impl Fn(u8) -> Option<char>) -> Result<Vec<u8>, usize> {
    let read = text.iter().enumerate().map(|(k, b)| of(*b).ok_or(k));
    read.collect::<Result<String, usize>>().map(String::into_bytes)
}

/// Windows-1252 has characters of its own at 0x80 to 0x9F, and none at five of these places.
fn windows_1252(byte: u8) -> Option<char> {
    const OWN: [u16; 32] = [
        0x20AC, 0, 0x201A, 0x0192, 0x201E, 0x2026, 0x2020, 0x2021, 0x02C6, 0x2030, 0x0160, 0x2039, 0x0152, 0, 0x017D, 0, //
        0, 0x2018, 0x2019, 0x201C, 0x201D, 0x2022, 0x2013, 0x2014, 0x02DC, 0x2122, 0x0161, 0x203A, 0x0153, 0, 0x017E, 0x0178,
    ];
    match byte {
        0x80..=0x9F => char::from_u32(OWN[usize::from(byte) - 0x80].into()).filter(|c| *c != '\0'),
        _ => Some(char::from(byte)),
    }
}

impl fmt::Display for Encoding {
    fn fmt(&self, f: &mut fmt::Formatter<'_>) -> fmt::Result {
        f.write_str(self.name())
    }
}

impl FromStr for Encoding {
    type Err = ();

    /// By its name, capitals or not, or another that is in use.
    fn from_str(name: &str) -> Result<Encoding, ()> {
        match name.to_ascii_lowercase().as_str() {
            "utf8" => Ok(Encoding::Utf8),
            "utf16" | "utf-16le" => Ok(Encoding::Utf16),
            "utf32" | "utf-32le" => Ok(Encoding::Utf32),
            "cp1252" => Ok(Encoding::Windows1252),
            "latin-1" | "latin1" => Ok(Encoding::Latin1),
            name => Encoding::ALL.into_iter().find(|e| e.name() == name).ok_or(()),
        }
    }
}

#[cfg(test)]
mod tests {
    use super::*;

    const WORDS: &str = "\u{feff}1\r\n\u{e9}\u{20ac}\u{1f3ad}\n";

    #[test]
    fn wide() {
        let read = Ok(WORDS.trim_start_matches('\u{feff}').as_bytes().to_vec());
        let units = || WORDS.encode_utf16();
        let (little, big): (Vec<u8>, Vec<u8>) = (units().flat_map(u16::to_le_bytes).collect(), units().flat_map(u16::to_be_bytes).collect());
        assert_eq!((Encoding::Utf16.decode(&little), Encoding::Utf16.decode(&big), Encoding::Utf16Be.decode(&big)), (read.clone(), read.clone(), read.clone()));
        assert_eq!((Encoding::Utf16.decode(&little[2..]), Encoding::Utf16Be.decode(&big[2..])), (read.clone(), read.clone()));
        assert_eq!(Encoding::Utf16.decode(&little[..little.len() - 1]), Err(little.len() - 2));
        let (little, big): (Vec<u8>, Vec<u8>) = (WORDS.chars().flat_map(|c| u32::from(c).to_le_bytes()).collect(), WORDS.chars().flat_map(|c| u32::from(c).to_be_bytes()).collect());
        assert_eq!((Encoding::Utf32.decode(&little), Encoding::Utf32.decode(&big), Encoding::Utf32.decode(&little[4..])), (read.clone(), read.clone(), read));
        assert_eq!((Encoding::Utf32.decode(&[0, 0xD8, 0, 0]), Encoding::Utf32.decode(&little[..9])), (Err(0), Err(8)));
    }

    /// The bytes of Windows-1252 beside the table of Unicode's mappings, and back.
    #[test]
    fn narrow() {
        assert_eq!(Encoding::Windows1252.decode(b"\x80\x8e\x9f\xa0\xff"), Ok("\u{20ac}\u{17d}\u{178}\u{a0}\u{ff}".into()));
        for byte in [0x81, 0x8D, 0x8F, 0x90, 0x9D] {
            assert_eq!(Encoding::Windows1252.decode(&[b'a', byte]), Err(1));
        }
        assert_eq!(Encoding::Latin1.decode(b"\x81\xe9"), Ok("\u{81}\u{e9}".into()));
        assert_eq!((0..=255u8).filter_map(windows_1252).collect::<std::collections::HashSet<_>>().len(), 251);
    }

    #[test]
    fn names() {
        for encoding in Encoding::ALL {
            assert_eq!(encoding.to_string().to_uppercase().parse(), Ok(encoding));
        }
        assert_eq!(("latin1".parse(), "CP1252".parse(), "koi8-r".parse::<Encoding>()), (Ok(Encoding::Latin1), Ok(Encoding::Windows1252), Err(())));
    }
}
