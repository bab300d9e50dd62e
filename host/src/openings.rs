//! The marks to open for a rule, and the schema with them open (docs/FORMAT.md, "The fewest marks to open").

use crate::entries::{Malformed, read_schema};
use crate::limits::{MAX_SCHEMA_ENTRIES, OPENINGS_BYTES};
use crate::raw;
use crate::refusal::Refusal;
use crate::sheets::{SchemaBytes, SchemaSheet};

/// The schema with these marks at 1, numbered as [`openings`](crate::openings()) has them: 0 is the mark of the arguments, 1 that of the record, any other
/// that of the field with this entry.
///
/// Nothing else changes, nor does a mark that is 1 already; a number that stands for no mark is left out. So [`widens`](crate::widens) finds that nothing differs but open marks.
///
/// ```
/// use entity_rules::{opened, widens, Widening};
///
/// let schema = b"H,0,1,0,0\nF,7,0,0,0,5,-,frame\n";
/// let wider = opened(schema, &[0, 2])?;
/// assert_eq!(wider, b"H,0,1,1,0\nF,7,1,0,0,5,-,frame\n");
/// assert_eq!(widens(schema, &wider)?, Widening::Marks);
/// # Ok::<(), Box<dyn std::error::Error>>(())
/// ```
///
/// # Errors
///
/// If the sheet is not well formed; the error says where.
pub fn opened<'a>(
    schema: impl Into<SchemaBytes<'a>>,
    marks: &[u32],
) -> Result<SchemaSheet, Malformed> {
    let schema = schema.into().0;
    let entries = read_schema(schema)?;
    let mut opened = schema.to_vec();
    for &mark in marks {
        // The head has two marks, and a field's is the third of what it has.
        let (entry, commas) = match mark {
            0 => (1, 3),
            1 => (1, 1),
            entry => (entry, 2),
        };
        let entry = usize::try_from(entry).unwrap_or(usize::MAX);
        let start = entries.get(entry.saturating_sub(1)).map(|entry| entry.byte);
        let byte = start.and_then(|start| after_commas(schema, start, commas));
        // Absent arguments have a dash there.
        if let Some(mark @ b'0') = byte.and_then(|byte| opened.get_mut(byte)) {
            *mark = b'1';
        }
    }
    Ok(SchemaSheet::new(opened))
}

/// The byte after so many commas from a place on.
fn after_commas(sheet: &[u8], start: usize, commas: usize) -> Option<usize> {
    let bytes = sheet.iter().enumerate().skip(start);
    let mut commas_met = bytes.filter(|(_, byte)| **byte == b',');
    let (last, _) = commas_met.nth(commas.checked_sub(1)?)?;
    last.checked_add(1)
}

/// The set, none where there is none, or the refusal that a result and a list stand for.
pub(crate) fn answer(
    result: &[u8; OPENINGS_BYTES],
    list: &[u8],
) -> Result<Option<Vec<u32>>, Refusal> {
    let [number, is_set, count] = [0, 1, 2].map(|index| raw::field(result, index));
    let unknown = Refusal::Unknown([number, is_set, count, 0, 0, 0, 0]);
    match (number, is_set, count) {
        (0, 0, 0) => Ok(None),
        (0, 1, count) => marks(list, count).map(Some).ok_or(unknown),
        (36, 0, 0) => Err(Refusal::Openings),
        (1 | 3..=5 | 37 | 38, 0, 0) => Err(Refusal::from_number(number).unwrap_or(unknown)),
        _ => Err(unknown),
    }
}

/// So many marks from the start of a list, where they rise and a schema can have them.
fn marks(list: &[u8], count: u32) -> Option<Vec<u32>> {
    let most = u32::try_from(MAX_SCHEMA_ENTRIES).ok()?;
    let room = most.checked_add(1)?;
    let marks: Vec<u32> = (0..count.min(room))
        .map(|index| raw::field(list, index))
        .collect();
    let rise = marks.is_sorted_by(|one, next| one < next);
    let is_known = marks.last().is_none_or(|last| *last <= most);
    (count <= room && rise && is_known).then_some(marks)
}

#[cfg(test)]
mod tests {
    use super::*;

    fn answered(numbers: [u32; 3], marks: &[u32]) -> Result<Option<Vec<u32>>, Refusal> {
        let bytes = |numbers: &[u32]| -> Vec<u8> {
            numbers
                .iter()
                .flat_map(|number| number.to_le_bytes())
                .collect()
        };
        let result = bytes(&numbers).try_into().expect("three numbers");
        answer(&result, &bytes(marks))
    }

    #[test]
    fn sets_and_refusals_are_told_apart() {
        assert_eq!(answered([0, 0, 0], &[3]), Ok(None));
        assert_eq!(answered([0, 1, 0], &[3]), Ok(Some(vec![])));
        assert_eq!(
            answered([0, 1, 2], &[0, 1_024, 7]),
            Ok(Some(vec![0, 1_024]))
        );
        assert_eq!(answered([36, 0, 0], &[]), Err(Refusal::Openings));
        assert_eq!(answered([5, 0, 0], &[]), Err(Refusal::RuleSheet));
    }

    #[test]
    fn answers_outside_the_format_are_unknown() {
        for (numbers, marks) in [
            ([0, 0, 1], &[1, 2][..]),
            ([0, 2, 0], &[]),
            ([0, 1, 2], &[1, 1]),
            ([0, 1, 2], &[2, 1]),
            ([0, 1, 1], &[1_025]),
            ([0, 1, 1_026], &[]),
            ([0, 1, u32::MAX], &[]),
            ([2, 0, 0], &[]),
            ([18, 0, 0], &[]),
            ([35, 0, 0], &[]),
            ([36, 1, 0], &[]),
            ([4, 0, 1], &[]),
        ] {
            let found = answered(numbers, marks);
            assert!(matches!(found, Err(Refusal::Unknown(_))), "{numbers:?}");
        }
    }

    #[test]
    fn exactly_the_marks_are_opened() {
        let schema = b"H,0,2,0,1\nF,7,0,1,0,3,-,a\n,\nF,1,0,0,0,0,-,\nF,7,1,0,0,2,-,\xC3\xA9\nF,8,0,0,0,1,0,x\n";
        let changed = |marks: &[u32]| -> Vec<usize> {
            let sheet = opened(schema, marks).expect("a schema");
            let pairs = sheet.iter().zip(schema).enumerate();
            let differing = pairs.filter(|(_, (one, other))| one != other);
            differing
                .map(|(at, (one, other))| {
                    assert_eq!((*one, *other), (b'1', b'0'));
                    at
                })
                .collect()
        };
        assert_eq!(changed(&[]), []);
        assert_eq!(changed(&[1]), [2]);
        assert_eq!(changed(&[0]), [6]);
        assert_eq!(changed(&[2]), [14]);
        assert_eq!(changed(&[3]), [32]);
        assert_eq!(changed(&[5]), [64]);
        assert_eq!(changed(&[4, 6, 1_025, u32::MAX]), []);
        assert_eq!(changed(&[0, 1, 2, 3, 4, 5]), [2, 6, 14, 32, 64]);
        let absent = opened(b"H,0,0,-,0\n", &[0]).expect("a schema");
        assert_eq!(absent, b"H,0,0,-,0\n");
        assert_eq!(
            opened(b"H,0,1,-,0\n", &[1]).map_err(|error| error.entry),
            Err(2)
        );
    }
}
