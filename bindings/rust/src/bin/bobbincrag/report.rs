//! What is told of a retimed text: a line for each warning, and its counts.
use crate::notes;
use crate::stderr::say;
use retimer::captions::{self, shown, Caption};
use retimer::{Kind, Retimed, Warning};

/// A text that was retimed, with its warnings' words.
pub struct Report {
    name: String,
    told: Vec<(Warning, String)>,
    notes: Vec<String>,
    counts: retimer::Counts,
}

impl Report {
    pub fn new(name: &str, kind: Kind, text: &[u8], retimed: &Retimed) -> Report {
        // a text that was retimed is sound
        let read = captions::read(kind, text).map_or(Vec::new(), |r| r.captions);
        let told = retimed.warnings.iter().map(|w| (*w, words_at(&read, w.line))).collect();
        let inside = notes::arrows_inside(kind, &read).into_iter().map(|(line, words)| format!("{name}:{line}: {}: \"{words}\"", notes::INSIDE));
        let none = notes::none_found(kind, text, &read).map(|note| format!("{name}: {note}"));
        Report { name: name.to_string(), told, notes: inside.chain(none).collect(), counts: retimed.counts }
    }

    /// On standard error.
    pub fn say(&self) {
        for (warning, words) in &self.told {
            let quoted = if words.is_empty() { String::new() } else { format!(": \"{}\"", shown(words)) };
            say(format_args!("{}:{}: warning {}: {}{quoted}", self.name, warning.line, warning.number, warning.sentence()));
        }
        self.notes.iter().for_each(say);
        say(format_args!("{}: {}", self.name, self.counts));
    }

    /// As lines of a table: file, line, number, sentence and words, parted by tabs.
    pub fn table(&self) -> String {
        let name = self.name.replace(|c: char| c.is_control(), " ");
        let row = |(w, words): &(Warning, String)| format!("{name}\t{}\t{}\t{}\t{words}\n", w.line, w.number, w.sentence());
        self.told.iter().map(row).collect()
    }
}

/// The words of the caption at a line.
fn words_at(read: &[Caption<'_>], line: u64) -> String {
    read.binary_search_by_key(&line, |c| c.line).map_or(String::new(), |k| read[k].words())
}
