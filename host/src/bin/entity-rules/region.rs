//! Places in a file as editors count them.

/// From one character to before another.
#[derive(Clone, Copy, Debug, PartialEq, Eq)]
pub struct Region {
    pub start: Position,
    pub end: Position,
}

/// A line, and in it a character, both from 1.
#[derive(Clone, Copy, Debug, PartialEq, Eq)]
pub struct Position {
    pub line: usize,
    pub column: usize,
}

/// What of an entry is at fault.
#[derive(Clone, Copy)]
pub enum Aim {
    /// All of it.
    Entry,
    /// Its first text.
    First,
    /// Its second text, a rule's message.
    Second,
    /// So many bytes of its text, after so many.
    Part { before: usize, length: usize },
}

impl Region {
    /// A place between two characters.
    pub fn at(start: Position) -> Self {
        Self { start, end: start }
    }

    /// The same in the file in which its sheet begins at this place.
    pub fn after(self, start: Position) -> Self {
        Self {
            start: self.start.after(start),
            end: self.end.after(start),
        }
    }

    /// Some bytes of a sheet or text.
    pub fn new(sheet: &[u8], bytes: std::ops::Range<usize>) -> Self {
        Self {
            start: Position::new(sheet, bytes.start),
            end: Position::new(sheet, bytes.end),
        }
    }

    /// An entry that begins at a byte, up to the end of its line; or a part of its text, which is its last field.
    pub fn of_entry(sheet: &[u8], entry: usize, aim: Aim) -> Self {
        let tail = sheet.get(entry..).unwrap_or_default();
        let length = |end: &mut dyn Iterator<Item = usize>| end.next().unwrap_or(tail.len());
        let commas = tail
            .iter()
            .zip(1_usize..)
            .filter(|(byte, _)| **byte == b',');
        let text = length(&mut commas.map(|(_, after)| after).skip(2));
        let line = length(&mut tail.iter().position(|&byte| byte == b'\n').into_iter());
        let bytes = match aim {
            Aim::Part { before, length } => {
                let start = entry.saturating_add(text).saturating_add(before);
                start..start.saturating_add(length)
            }
            Aim::Entry | Aim::First | Aim::Second => entry..entry.saturating_add(line),
        };
        Self::new(sheet, bytes)
    }
}

impl Position {
    /// Before the first character.
    pub const START: Self = Self { line: 1, column: 1 };

    /// The place of a byte. A text may hold line ends, so its line is not the entry's number.
    pub fn new(sheet: &[u8], byte: usize) -> Self {
        let before = sheet.get(..byte).unwrap_or(sheet);
        let lines = before.split(|&byte| byte == b'\n');
        let last = before.rsplit(|&byte| byte == b'\n').next();
        let is_first = |byte: &&u8| (**byte & 0xC0) != 0x80;
        let letters = last.unwrap_or_default().iter().filter(is_first).count();
        Self {
            line: lines.count(),
            column: letters.saturating_add(1),
        }
    }

    /// The same in the file in which its sheet begins at this place.
    pub fn after(self, start: Self) -> Self {
        let sum = |start: usize, own: usize| start.saturating_add(own).saturating_sub(1);
        Self {
            line: sum(start.line, self.line),
            column: match self.line {
                1 => sum(start.column, self.column),
                _ => self.column,
            },
        }
    }
}

#[cfg(test)]
mod tests {
    use super::*;

    #[test]
    fn positions_count_lines_and_letters() {
        let sheet = "aé\nbc".as_bytes();
        let position = |byte| {
            let Position { line, column } = Position::new(sheet, byte);
            (line, column)
        };
        assert_eq!(
            [0, 1, 3, 4, 5, 6, 99].map(position),
            [(1, 1), (1, 2), (1, 3), (2, 1), (2, 2), (2, 3), (2, 3)]
        );
    }

    #[test]
    fn only_the_first_line_of_a_sheet_stands_behind_what_is_before_it() {
        let file = b"2,a\n4,b\ncd";
        for byte in 0..5 {
            let start = Position::new(file, 6);
            let place = Position::new(&file[6..], byte);
            assert_eq!(place.after(start), Position::new(file, 6 + byte));
            assert_eq!(place.after(Position::START), place);
        }
    }

    #[test]
    fn parts_of_a_text_are_found_in_its_entry() {
        let sheet = b"T\nV,5,7,$a,b\nc\n";
        let region = |aim| {
            let Region { start, end } = Region::of_entry(sheet, 2, aim);
            [(start.line, start.column), (end.line, end.column)]
        };
        let part = |before, length| region(Aim::Part { before, length });
        assert_eq!(region(Aim::Entry), [(2, 1), (2, 11)]);
        assert_eq!(part(1, 1), [(2, 8), (2, 9)]);
        assert_eq!(part(5, 1), [(3, 1), (3, 2)]);
    }
}
