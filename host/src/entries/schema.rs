//! Schema sheets.

use super::content::{Content, Entry, Malformed};
use super::reader::{Read, Reader};
use super::whole::read;
use crate::limits::MAX_SCHEMA_ENTRIES;
use crate::vocabulary::{FieldKind, Nesting};

/// The entries of a schema sheet.
///
/// ```
/// use entity_rules::entries::read_schema;
///
/// let entries = read_schema(b"H,0,1,-,0\nF,1,0,0,0,4,-,name\n")?;
/// assert_eq!(entries.iter().map(|entry| entry.byte).collect::<Vec<_>>(), [0, 10]);
/// # Ok::<(), entity_rules::entries::Malformed>(())
/// ```
///
/// # Errors
///
/// If the sheet is not well formed.
pub fn read_schema(sheet: &[u8]) -> Result<Vec<Entry<'_>>, Malformed> {
    read(sheet, MAX_SCHEMA_ENTRIES, entries)
}

fn entries(reader: &mut Reader<'_>) -> Read<()> {
    let mut tasks = reader.schema()?;
    while let Some(task) = tasks.pop() {
        match task {
            Task::Fields { count: 0, .. } => {}
            Task::Fields {
                count,
                depth,
                before,
            } => {
                let field = reader.field(depth, before, false)?;
                let (count, before) = (count.saturating_sub(1), Some(field.name));
                tasks.push(Task::Fields {
                    count,
                    depth,
                    before,
                });
                tasks.extend(field.below(depth));
            }
            Task::Element { depth } => {
                let field = reader.field(depth, None, true)?;
                tasks.extend(field.below(depth));
            }
        }
    }
    reader.end_of_sheet()
}

/// What is to be read. Tasks wait in a list, the next one at its end, so nesting costs no stack.
enum Task<'a> {
    Element {
        depth: usize,
    },
    /// Fields beside each other, the first of which comes after the name before it.
    Fields {
        count: usize,
        depth: usize,
        before: Option<&'a str>,
    },
}

/// What the rest of the sheet depends on in a field's entry.
struct Head<'a> {
    name: &'a str,
    items: bool,
    properties: usize,
}

impl<'a> Head<'a> {
    /// What follows the entry of a field at that depth, the first at the end.
    fn below(&self, depth: usize) -> impl Iterator<Item = Task<'a>> + use<'a> {
        let depth = depth.saturating_add(1);
        let properties = Task::Fields {
            count: self.properties,
            depth,
            before: None,
        };
        let element = self.items.then_some(Task::Element { depth });
        std::iter::once(properties).chain(element)
    }
}

impl<'a> Reader<'a> {
    /// The head of the sheet; answers what follows it.
    fn schema(&mut self) -> Read<Vec<Task<'a>>> {
        self.begin("H", "which begins a schema sheet")?;
        let open = self.mark("the record's open mark, 0 or 1")?;
        let fields = self.count("fields the record has")?;
        let arguments_open =
            self.numeral_or_dash(1, "the open mark of the arguments, 0 or 1, or `-`")?;
        let count = match arguments_open {
            Some(_) => self.count("arguments there are")?,
            None => self.numeral(0, 0, "0, since there are no arguments")?,
        };
        let arguments = arguments_open.map(|open| (open == 1, count));
        self.end(Content::Head {
            open,
            fields,
            arguments,
        })?;
        let siblings = |count| Task::Fields {
            count,
            depth: 1,
            before: None,
        };
        Ok(vec![siblings(count), siblings(fields)])
    }

    /// A field's entry, with a name that comes after the one before it.
    fn field(&mut self, depth: usize, before: Option<&str>, is_element: bool) -> Read<Head<'a>> {
        self.nests(depth, Nesting::Fields)?;
        self.begin(
            "F",
            if is_element {
                "the field of the element"
            } else {
                "a field"
            },
        )?;
        let kind = self.field_kind()?;
        let open = self.mark("the field's open mark, 0 or 1")?;
        let items = self.mark("the field's items mark, 0 or 1")?;
        let properties = self.count("properties the field has")?;
        let name_length = match is_element {
            true => self.numeral(0, 0, "0, since an element has no name")?,
            false => self.length("the field's name")?,
        };
        let tag_length = self.length_or_dash("the field's tag")?;
        self.comma()?;
        let name = self.text(name_length, "a name")?;
        let tag = self.text_or_absent(tag_length, "a tag")?;
        self.rises(before, name)?;
        self.end(Content::Field {
            kind,
            open,
            items,
            properties,
            name,
            tag,
        })?;
        Ok(Head {
            name,
            items,
            properties,
        })
    }

    fn field_kind(&mut self) -> Read<FieldKind> {
        const EXPECTED: &str = "the field's kind, 1 to 12";
        let number = self.numeral(1, 12, EXPECTED)?;
        let kind = u32::try_from(number).ok().and_then(FieldKind::from_number);
        kind.map_or_else(|| self.fail(EXPECTED), Ok)
    }
}
