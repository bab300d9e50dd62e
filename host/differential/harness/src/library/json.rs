//! `rulecheck_from_json` and `rulecheck_to_json`, compared with what the model answers: every byte of the buffers and around them, and every number.

use super::arena::{in_arena, mixed};
use super::lent::{ConvertLent, Extent, Slot};
use super::raw;
use cases::limits::{CONVERT_RESULT_BYTES, MAX_SHEET_BYTES};
use model::Converted;

/// Compares the sheet that the library makes of a text with the model's, which goes by the room for it. An error says how they differ.
pub fn hold_text(text: &[u8], answer: impl Fn(usize) -> Converted, extent: Extent) -> Result<(), String> {
    hold(raw::from_json, text, answer, extent)
}

/// Compares the JSON that the library makes of a sheet with the model's, which goes by the room for it. An error says how they differ.
pub fn hold_sheet(sheet: &[u8], answer: impl Fn(usize) -> Converted, extent: Extent) -> Result<(), String> {
    hold(raw::to_json, sheet, answer, extent)
}

fn hold(function: raw::Converts, input: &[u8], answer: impl Fn(usize) -> Converted, extent: Extent) -> Result<(), String> {
    let made = answer(usize::MAX).map(|made| made.len()).ok();
    calls(input, made, extent).iter().try_for_each(|lent| {
        let expected = answer(lent.room);
        let told = || format!("{:?}", expected.as_ref().map(|made| String::from_utf8_lossy(made)));
        in_arena(lent, told, |arena| arena.convert(function, input, lent, expected.as_deref().map_err(|number| *number)))
    })
}

/// Buffers of the length of what is made, more, one less and none; where it is refused, any. Where some are made, one has room, and in half of the cases another has none.
fn calls(input: &[u8], made: Option<usize>, extent: Extent) -> Vec<ConvertLent> {
    let chance = mixed([made.unwrap_or(0) as u64, 0], &[input]);
    let spare = [0, 0, 1, 3, 4, 36][(chance >> 4) as usize % 6];
    let slot = Slot { length: CONVERT_RESULT_BYTES + spare, shift: chance as usize % 4, pattern: chance as usize / 4 % 2 };
    let other = Slot { pattern: 1 - slot.pattern, ..slot };
    let short = Slot { length: (chance >> 32) as usize % CONVERT_RESULT_BYTES, ..slot };
    let Some(length) = made else {
        let rooms = [0, 1, 100, MAX_SHEET_BYTES, MAX_SHEET_BYTES + 1];
        let lent = |index: u64, slot| ConvertLent { room: rooms[index as usize % rooms.len()], slot };
        return match extent {
            Extent::All => rooms.map(|room| ConvertLent { room, slot }).into_iter().chain([lent(chance >> 8, short)]).collect(),
            _ if (chance >> 20) % 8 == 0 => vec![lent(chance >> 8, short)],
            _ => vec![lent(chance >> 8, slot)],
        };
    };
    let fitting =
        [(length, slot), (length + 1, slot), (length, other), (length + 64, other), (MAX_SHEET_BYTES.max(length), slot), (length, short)];
    let tight = [(length - 1, slot), (0, slot), (length - 1, other), ((chance >> 16) as usize % length, slot), (length - 1, short)];
    let lent = |(room, slot): (usize, Slot)| ConvertLent { room, slot };
    match extent {
        Extent::All => fitting.into_iter().chain(tight).map(lent).collect(),
        _ => {
            let one = lent(fitting[(chance >> 24) as usize % fitting.len()]);
            let another = ((chance >> 40) % 2 == 0).then(|| lent(tight[(chance >> 28) as usize % tight.len()]));
            [one].into_iter().chain(another).collect()
        }
    }
}
