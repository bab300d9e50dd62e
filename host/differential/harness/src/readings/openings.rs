//! A second reading of where the open marks of a schema sheet are: flat over its entries, by commas and lengths.

/// A mark that is 0: its number, which is 0 for the arguments, 1 for the record and else the field's entry, and its byte in the sheet.
#[derive(Clone, Copy, Debug, PartialEq, Eq, PartialOrd, Ord)]
pub struct Closed {
    pub number: u32,
    byte: usize,
}

/// The marks of a well-formed sheet that are 0, by rising number.
pub fn closed_marks(sheet: &[u8]) -> Vec<Closed> {
    let [record, _, arguments, _] = commas(sheet, 0);
    let mut found = vec![Closed { number: 1, byte: record + 1 }, Closed { number: 0, byte: arguments + 1 }];
    let mut start = line_end(sheet, arguments) + 1;
    for number in 2.. {
        if start == sheet.len() {
            break;
        }
        let [_, open, _, _, name, tag, text] = commas(sheet, start);
        found.push(Closed { number, byte: open + 1 });
        start = text + 1 + length(&sheet[name + 1..tag]) + length(&sheet[tag + 1..text]) + 1;
    }
    // Absent arguments have a dash in place of a mark.
    found.retain(|mark| sheet[mark.byte] == b'0');
    found.sort();
    found
}

/// The sheet with these marks at 1.
pub fn opened<'m>(sheet: &[u8], marks: impl IntoIterator<Item = &'m Closed>) -> Vec<u8> {
    let mut opened = sheet.to_vec();
    marks.into_iter().for_each(|mark| opened[mark.byte] = b'1');
    opened
}

/// The places of the next commas.
fn commas<const N: usize>(sheet: &[u8], start: usize) -> [usize; N] {
    let mut places = (start..sheet.len()).filter(|at| sheet[*at] == b',');
    std::array::from_fn(|_| places.next().expect("an entry has its commas"))
}

fn line_end(sheet: &[u8], start: usize) -> usize {
    (start..sheet.len()).find(|at| sheet[*at] == b'\n').expect("an entry has its end")
}

/// A length, or none for an absent text.
fn length(field: &[u8]) -> usize {
    std::str::from_utf8(field).ok().and_then(|text| text.parse().ok()).unwrap_or(0)
}

#[cfg(test)]
mod tests {
    use super::*;

    #[test]
    fn marks_are_where_the_entries_have_them() {
        let sheet =
            b"H,0,3,0,1\nF,7,0,1,1,3,-,a\n,\nF,7,1,0,0,0,-,\nF,1,0,0,0,1,-,s\nF,11,1,0,0,1,4,ukind\nF,8,0,0,0,2,0,zz\nF,2,0,0,0,1,-,x\n";
        let closed = closed_marks(sheet);
        assert_eq!(closed.iter().map(|mark| mark.number).collect::<Vec<_>>(), [0, 1, 2, 4, 6, 7]);
        let open = opened(sheet, &closed);
        assert_eq!(
            open,
            b"H,1,3,1,1\nF,7,1,1,1,3,-,a\n,\nF,7,1,0,0,0,-,\nF,1,1,0,0,1,-,s\nF,11,1,0,0,1,4,ukind\nF,8,1,0,0,2,0,zz\nF,2,1,0,0,1,-,x\n"
        );
        assert!(closed_marks(&open).is_empty());
        let [record] = closed_marks(b"H,0,0,-,0\n")[..] else { panic!("one mark") };
        assert_eq!((record.number, record.byte), (1, 2));
    }
}
