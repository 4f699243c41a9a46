//! The rest of a text, from a line on, with what a session knows of the lines before it. Behind a head that says the same it reads as in the whole text.
use super::{read, Place};
use crate::Kind;

/// What a session knows: the number of the line at which the rest begins, and of ASS whether it stands in `Events`, how many columns there are, and the places of `Start` and `End`, from
/// 1 (0: there is none).
#[derive(Clone, Copy)]
pub(crate) struct Rest {
    pub kind: Kind,
    pub line: u64,
    pub events: bool,
    pub columns: usize,
    pub start: usize,
    pub stop: usize,
}

impl Rest {
    /// Where the rest has the fault of this number; nothing where the reader tells another number.
    pub fn place(&self, number: u32, rest: &[u8]) -> Option<Place> {
        let head = self.head();
        let before = super::lines::ends(&head);
        let text = [&head[..], rest].concat();
        let reading = read(self.kind, &text).ok()?;
        let (refused, line) = reading.fault?;
        let place = reading.place().filter(|_| refused.0 == number && line > before)?;
        Some(Place { line: self.line + line - before - 1, ..place })
    }

    /// Lines that leave known what is known; none at the start of a text, where a byte order mark can stand.
    fn head(&self) -> Vec<u8> {
        match self.kind {
            _ if self.line == 1 => String::new(),
            Kind::Ass if self.columns > 0 => self.format() + if self.events { "" } else { "[-]\n" },
            Kind::Ass if self.events => "[Events]\n".to_string(),
            Kind::Ass | Kind::Srt => "\n".to_string(),
            Kind::Vtt => "WEBVTT\n".to_string(),
        }
        .into_bytes()
    }

    fn format(&self) -> String {
        let name = |k| {
            if k == self.start {
                "Start"
            } else if k == self.stop {
                "End"
            } else {
                ""
            }
        };
        format!("[Events]\nFormat:{}\n", (1..=self.columns).map(name).collect::<Vec<_>>().join(","))
    }
}
