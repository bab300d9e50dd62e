//! The library's C functions (docs/FORMAT.md, "The C interface"), on slices and numbers as they are.
//!
//! [`check`](crate::check) and its siblings are easier to use. These here take any settings, any bytes and buffers of any length, and
//! answer with numbers alone.
//!
//! ```
//! use entity_rules::limits::{PATH_BYTES, RESULT_BYTES};
//! use entity_rules::raw;
//!
//! let (mut path, mut result) = (vec![0; PATH_BYTES], [0; RESULT_BYTES]);
//! let schema = b"H,0,0,-,0\n";
//! let rule = b"R,-,-,\nC,5,0,\nV,5,9,$fields.a\n";
//! let number = raw::rule(1, 1, b"r", schema, rule, &mut path, &mut result);
//!
//! assert_eq!(number, 18);
//! let length = raw::field(&result, 6);
//! assert_eq!(path.get(..length as usize), Some(&b"r.assert.exists"[..]));
//! ```

#[allow(unsafe_code)]
mod functions;

use functions::{
    rulecheck_check, rulecheck_count, rulecheck_explain, rulecheck_field, rulecheck_finite,
    rulecheck_from_json, rulecheck_instant, rulecheck_load_table, rulecheck_openings,
    rulecheck_path, rulecheck_rule, rulecheck_tally, rulecheck_template, rulecheck_to_json,
    rulecheck_version, rulecheck_wall, rulecheck_widens,
};

/// Checks a rule; the answer is the number, and `result` takes all seven numbers.
///
/// A result under 28 bytes, like a path buffer under 32,768, is refusal 3. A template's sheet is refusal 5.
///
/// ```
/// use entity_rules::raw;
///
/// assert_eq!(raw::rule(9, 1, b"", b"", b"", &mut [], &mut []), 1);
/// assert_eq!(raw::rule(1, 1, b"\xFF", b"", b"", &mut [], &mut []), 2);
/// assert_eq!(raw::rule(1, 1, b"", b"", b"", &mut [], &mut []), 3);
/// ```
pub fn rule(
    kind: u64,
    semantics: u64,
    label: &[u8],
    schema: &[u8],
    rule: &[u8],
    path: &mut [u8],
    result: &mut [u8],
) -> u32 {
    rulecheck_rule(
        kind,
        semantics,
        label,
        schema,
        rule,
        path.into(),
        result.into(),
    )
}

/// Checks a template; otherwise as [`rule`]. A rule's sheet is refusal 5.
///
/// ```
/// use entity_rules::raw;
///
/// let (mut path, mut result) = (vec![0; 32_768], [0; 28]);
/// let template = b"T\nV,5,6,$state\n";
/// assert_eq!(raw::template(3, 1, b"", b"H,0,0,-,0\n", template, &mut path, &mut result), 0);
/// assert_eq!(raw::template(5, 1, b"", b"H,0,0,-,0\n", template, &mut path, &mut result), 18);
/// assert_eq!(raw::rule(3, 1, b"", b"H,0,0,-,0\n", template, &mut path, &mut result), 5);
/// ```
pub fn template(
    kind: u64,
    semantics: u64,
    label: &[u8],
    schema: &[u8],
    rule: &[u8],
    path: &mut [u8],
    result: &mut [u8],
) -> u32 {
    rulecheck_template(
        kind,
        semantics,
        label,
        schema,
        rule,
        path.into(),
        result.into(),
    )
}

/// Checks a rule or a template, as the first letter of its sheet says, under a name table, and marks the conditions of an accepted rule that are
/// constant; otherwise as [`rule`].
///
/// A table of 0 bytes is the stock table. Of any other the first 176 bytes count: what is not a table is refusal 37, and a mark that breaks one of
/// the two conditions refusal 38. A list of marks under 8,192 bytes is refusal 35. They are tried after 3 and before 4, in the order 35, 37, 38.
///
/// A mark is the number of the condition's entry, doubled, and 1 more if it is true. It takes four bytes, as a number of the result; the marks
/// rise, and the list keeps its other bytes. The result has 32 bytes: after the seven numbers, at index 7, is how many marks there are.
///
/// ```
/// use entity_rules::raw;
///
/// let (mut path, mut marks, mut result) = (vec![0; 32_768], vec![0; 8_192], [0; 32]);
/// let (schema, template) = (b"H,0,0,-,0\n", b"T\nV,5,6,$state\n");
/// let stock = entity_rules::Table::stock().sheet()?;
/// assert_eq!(raw::check(3, 1, b"", &[], schema, template, &mut path, &mut marks, &mut result), 0);
/// assert_eq!(raw::check(5, 1, b"", &stock, schema, template, &mut path, &mut marks, &mut result), 18);
/// assert_eq!(raw::check(5, 1, b"", b"N", schema, template, &mut path, &mut marks, &mut result), 37);
/// assert_eq!(raw::check(5, 1, b"", b"N", schema, template, &mut path, &mut [], &mut result), 35);
/// assert_eq!(raw::check(5, 1, b"", b"N", schema, template, &mut [], &mut [], &mut result), 3);
///
/// // Entry 2 is true whatever the record holds.
/// let rule = b"R,-,-,\nC,6,0,\nV,5,10,2024-02-29\nV,5,10,2024-03-01\n";
/// assert_eq!(raw::check(1, 1, b"", &[], schema, rule, &mut path, &mut marks, &mut result), 0);
/// assert_eq!((raw::field(&result, 7), raw::field(&marks, 0)), (1, 2 * 2 + 1));
/// # Ok::<(), entity_rules::TableError>(())
/// ```
#[expect(
    clippy::too_many_arguments,
    reason = "as many as the C function has slices and numbers"
)]
pub fn check(
    kind: u64,
    semantics: u64,
    label: &[u8],
    table: &[u8],
    schema: &[u8],
    rule: &[u8],
    path: &mut [u8],
    marks: &mut [u8],
    result: &mut [u8],
) -> u32 {
    rulecheck_check(
        kind,
        semantics,
        label,
        table,
        schema,
        rule,
        path.into(),
        marks.into(),
        result.into(),
    )
}

/// Checks a rule or a template and writes the message of its defect, as entity-runtime has it; otherwise as [`check`].
///
/// The result has 40 bytes. After the eight numbers of [`check`], at index 8, is 39 if the buffer cannot take the message, and else 0; at index 9 is how
/// many bytes the message has, whether it was written or not. With 39 the buffer for it keeps all its bytes, and everything else is as it would be with a longer
/// one; without it the message is at the buffer's start, and its other bytes stay. What is accepted or refused has no message: both numbers are 0.
///
/// ```
/// use entity_rules::raw;
///
/// let (mut path, mut marks, mut result) = (vec![0; 32_768], vec![0; 8_192], [0; 40]);
/// let (schema, template) = (b"H,0,0,-,0\n", b"T\nV,5,9,$fields.a\n");
/// let mut message = [b'-'; 52];
/// let mut explain = |message: &mut [u8]| {
///     let number = raw::explain(3, 1, b"", &[], schema, template, &mut path, &mut marks, message, &mut result);
///     [number, raw::field(&result, 8), raw::field(&result, 9)]
/// };
///
/// assert_eq!(explain(&mut message[..44]), [18, 39, 45]);
/// assert_eq!(message, [b'-'; 52]);
/// assert_eq!(explain(&mut message), [18, 0, 45]);
/// assert_eq!(&message, b"'$fields.a' cannot resolve: unknown field 'a'-------");
/// ```
#[expect(
    clippy::too_many_arguments,
    reason = "as many as the C function has slices and numbers"
)]
pub fn explain(
    kind: u64,
    semantics: u64,
    label: &[u8],
    table: &[u8],
    schema: &[u8],
    rule: &[u8],
    path: &mut [u8],
    marks: &mut [u8],
    message: &mut [u8],
    result: &mut [u8],
) -> u32 {
    rulecheck_explain(
        kind,
        semantics,
        label,
        table,
        schema,
        rule,
        path.into(),
        marks.into(),
        message.into(),
        result.into(),
    )
}

/// Copies a name table to the start of a buffer and answers 0; else the buffer stays as it is.
///
/// What is not a table of exactly 176 bytes, and a buffer under 176 bytes, are refusal 37. A mark that breaks one of the two conditions is refusal 38.
///
/// ```
/// use entity_rules::raw;
///
/// let stock = entity_rules::Table::stock().sheet()?;
/// let mut buffer = [b'-'; 180];
/// assert_eq!(raw::load_table(&stock, &mut buffer[..175]), 37);
/// assert_eq!(buffer, [b'-'; 180]);
/// assert_eq!(raw::load_table(&stock, &mut buffer), 0);
/// assert_eq!(buffer, *[&stock[..], b"----"].concat());
/// # Ok::<(), entity_rules::TableError>(())
/// ```
pub fn load_table(table: &[u8], buffer: &mut [u8]) -> u32 {
    rulecheck_load_table(table, buffer.into())
}

/// Checks one path of the record's fields, without `$fields.` before it; the answer is the number, and `result` takes all seven numbers.
///
/// A result under 28 bytes is refusal 3, a path over 512 bytes refusal 2.
///
/// ```
/// use entity_rules::raw;
///
/// let (schema, mut result) = (b"H,0,1,-,0\nF,1,0,0,0,4,-,name\n", [0; 28]);
/// assert_eq!(raw::path(2, 1, b"name.count", schema, &mut result), 0);
/// assert_eq!(raw::path(2, 2, b"name.count", schema, &mut result), 18);
/// assert_eq!(raw::field(&result, 2), 13);
/// assert_eq!(raw::path(2, 3, b"\xFF", b"", &mut []), 1);
/// assert_eq!(raw::path(2, 2, b"\xFF", b"", &mut []), 2);
/// assert_eq!(raw::path(2, 2, b"", b"", &mut []), 3);
/// assert_eq!(raw::path(2, 2, b"", b"", &mut result), 4);
/// ```
pub fn path(semantics: u64, reader: u64, path: &[u8], schema: &[u8], result: &mut [u8]) -> u32 {
    rulecheck_path(semantics, reader, path, schema, result.into())
}

/// Decides whether the second schema is a widening of the first; the answer is 0 whichever it is, and `result` takes five numbers and two zeros: 0, which of
/// the three answers, the reason, and the entries in the first and in the second sheet.
///
/// A result under 28 bytes is refusal 3. A sheet that is not well formed is refusal 4, and the next number says which.
///
/// ```
/// use entity_rules::raw;
///
/// let (closed, open, mut result) = (b"H,0,0,-,0\n", b"H,1,0,-,0\n", [0; 28]);
/// assert_eq!(raw::widens(closed, open, &mut result), 0);
/// assert_eq!(raw::field(&result, 1), 1);
/// assert_eq!(raw::widens(open, closed, &mut result), 0);
/// assert_eq!([1, 2, 3, 4].map(|index| raw::field(&result, index)), [3, 5, 1, 1]);
/// assert_eq!(raw::widens(open, b"", &mut result), 4);
/// assert_eq!(raw::field(&result, 1), 2);
/// assert_eq!(raw::widens(b"", b"", &mut []), 3);
/// ```
pub fn widens(first: &[u8], second: &[u8], result: &mut [u8]) -> u32 {
    rulecheck_widens(first, second, result.into())
}

/// Tallies a rule book; the answer is 0 or a refusal, and `result` takes eighteen numbers of eight bytes, which [`count`] reads: the answer, the sheets read, accepted,
/// refused by 4, refused by 5, how often each of 11 to 22 came, and the checks passed.
///
/// A result under 144 bytes, like a path buffer under 32,768, is refusal 3. After a tally the first 32,768 bytes of the path buffer hold anything. A file that is not a
/// book is refusal 34, tried before the table's.
///
/// ```
/// use entity_rules::raw;
///
/// let (mut path, mut result) = (vec![0; 32_768], [0; 144]);
/// let (schema, book) = (b"H,0,0,-,0\n", b"14,R,-,-,\nC,1,1,\n0,");
/// assert_eq!(raw::tally(1, 1, b"", &[], schema, book, &mut path, &mut result), 0);
/// assert_eq!([1, 2, 3, 4].map(|index| raw::count(&result, index)), [2, 1, 0, 1]);
/// assert_eq!(raw::count(&result, 17), 4);
/// assert_eq!(raw::tally(1, 1, b"", b"N", schema, b"1", &mut path, &mut result), 34);
/// assert_eq!(raw::tally(1, 1, b"", b"N", schema, b"", &mut path, &mut result), 37);
/// assert_eq!(raw::tally(1, 1, b"", b"N", schema, b"1", &mut path, &mut result[..143]), 3);
/// ```
#[expect(
    clippy::too_many_arguments,
    reason = "as many as the C function has slices and numbers"
)]
pub fn tally(
    kind: u64,
    semantics: u64,
    label: &[u8],
    table: &[u8],
    schema: &[u8],
    book: &[u8],
    path: &mut [u8],
    result: &mut [u8],
) -> u32 {
    rulecheck_tally(
        kind,
        semantics,
        label,
        table,
        schema,
        book,
        path.into(),
        result.into(),
    )
}

/// Prints how the sheets of a rule book fare; the answer is 0 or a refusal, and `result` takes two numbers of eight bytes, which [`count`] reads: the answer and the count of pages,
/// which are at the start of `pages`.
///
/// A page has 4,860 bytes and room for 58 sheets. A buffer that is too short for all pages is refusal 33, tried after 34 and before the table's; a result under 16 bytes, like a path buffer under
/// 32,768, is refusal 3. Under a refusal nothing but the result is written.
///
/// ```
/// use entity_rules::raw;
///
/// let (mut path, mut pages, mut result) = (vec![0; 32_768], vec![b'-'; 4_861], [0; 16]);
/// let (schema, book) = (b"H,0,0,-,0\n", b"14,R,-,-,\nC,1,1,\n0,");
/// assert_eq!(raw::wall(1, 1, b"", &[], schema, book, &mut path, &mut pages, &mut result), 0);
/// assert_eq!(raw::count(&result, 1), 1);
/// assert!(pages.starts_with(b"PAGE     1  ") && pages.ends_with(b" \n-"));
/// assert_eq!(raw::wall(1, 1, b"", &[], schema, book, &mut path, &mut pages[..4_859], &mut result), 33);
/// assert_eq!(raw::count(&result, 1), 0);
/// ```
#[expect(
    clippy::too_many_arguments,
    reason = "as many as the C function has slices and numbers"
)]
pub fn wall(
    kind: u64,
    semantics: u64,
    label: &[u8],
    table: &[u8],
    schema: &[u8],
    book: &[u8],
    path: &mut [u8],
    pages: &mut [u8],
    result: &mut [u8],
) -> u32 {
    rulecheck_wall(
        kind,
        semantics,
        label,
        table,
        schema,
        book,
        path.into(),
        pages.into(),
        result.into(),
    )
}

/// Finds the fewest marks of a schema to open so that a rule or template is accepted; the answer is 0 or a refusal, and `result` takes three numbers of four bytes, which [`field`] reads: the
/// answer, 1 if there is a set, and how many marks it has. These are at the start of `list`, four bytes each.
///
/// A result under 12 bytes, like a path buffer under 32,768, is refusal 3. A list under 4,100 bytes is refusal 36, tried after that and before the table's. There is no label. After an answer the first
/// 32,768 bytes of the path buffer hold anything; under a refusal nothing but the result is written.
///
/// ```
/// use entity_rules::raw;
///
/// let (mut path, mut list, mut result) = (vec![0; 32_768], [7; 4_100], [0; 12]);
/// let (schema, template) = (b"H,0,0,0,0\n", b"T\nV,6,2,\nV,5,9,$fields.a\nV,5,7,$args.b\n");
/// assert_eq!(raw::openings(2, 1, &[], schema, template, &mut path, &mut list, &mut result), 0);
/// assert_eq!([1, 2].map(|index| raw::field(&result, index)), [1, 2]);
/// assert_eq!(list[..9], [0, 0, 0, 0, 1, 0, 0, 0, 7]);
///
/// // Nothing makes this one readable.
/// assert_eq!(raw::openings(2, 1, &[], schema, b"T\nV,5,5,$nope\n", &mut path, &mut list, &mut result), 0);
/// assert_eq!([1, 2].map(|index| raw::field(&result, index)), [0, 0]);
/// assert_eq!(raw::openings(2, 1, b"N", schema, b"", &mut path, &mut list[..4_099], &mut result), 36);
/// assert_eq!(raw::openings(2, 1, b"N", schema, b"", &mut path, &mut list, &mut result), 37);
/// ```
#[expect(
    clippy::too_many_arguments,
    reason = "as many as the C function has slices and numbers"
)]
pub fn openings(
    kind: u64,
    semantics: u64,
    table: &[u8],
    schema: &[u8],
    rule: &[u8],
    path: &mut [u8],
    list: &mut [u8],
    result: &mut [u8],
) -> u32 {
    rulecheck_openings(
        kind,
        semantics,
        table,
        schema,
        rule,
        path.into(),
        list.into(),
        result.into(),
    )
}

/// Makes the sheet of a rule in JSON; the answer is 0 or a refusal, and `result` takes two numbers of four bytes, which [`field`] reads: the answer and the length of the sheet, which
/// is at the start of `sheet`.
///
/// A text that is not the JSON of a rule is refusal 31, then a sheet over a limit 32, then a buffer that is too short for it 33; the length is 0 then, and the buffer unchanged. A result under 8 bytes is
/// not written, and the answer is as it would be.
///
/// ```
/// use entity_rules::raw;
///
/// let (mut sheet, mut result) = ([b'-'; 16], [0; 8]);
/// assert_eq!(raw::from_json(b"{\"assert\": true}", &mut sheet, &mut result), 0);
/// assert_eq!(raw::field(&result, 1), 14);
/// assert_eq!(&sheet, b"R,-,-,\nC,1,1,\n--");
/// assert_eq!(raw::from_json(b"{\"assert\": false}", &mut sheet[..13], &mut result), 33);
/// assert_eq!(raw::field(&result, 1), 0);
/// assert_eq!(raw::from_json(b"{\"assert\": null}", &mut [], &mut []), 31);
/// assert_eq!(&sheet, b"R,-,-,\nC,1,1,\n--");
/// ```
pub fn from_json(text: &[u8], sheet: &mut [u8], result: &mut [u8]) -> u32 {
    rulecheck_from_json(text, sheet.into(), result.into())
}

/// Writes the JSON of a rule's sheet; the answer is 0 or a refusal, and `result` takes two numbers of four bytes, which [`field`] reads: the answer and the length of the text, which is at the
/// start of `json`.
///
/// A sheet that is not well formed, and a template's, is refusal 5, then a buffer that is too short for the text 33; the length is 0 then, and the buffer unchanged. A result under 8 bytes is not written,
/// and the answer is as it would be.
///
/// ```
/// use entity_rules::raw;
///
/// let (mut json, mut result) = ([b'-'; 16], [0; 8]);
/// assert_eq!(raw::to_json(b"R,-,-,\nC,1,1,\n", &mut json, &mut result), 0);
/// assert_eq!(raw::field(&result, 1), 15);
/// assert_eq!(&json, b"{\"assert\":true}-");
/// assert_eq!(raw::to_json(b"R,-,-,\nC,1,1,\n", &mut json[..14], &mut result), 33);
/// assert_eq!(raw::to_json(b"T\nV,1,0,\n", &mut [], &mut []), 5);
/// ```
pub fn to_json(sheet: &[u8], json: &mut [u8], result: &mut [u8]) -> u32 {
    rulecheck_to_json(sheet, json.into(), result.into())
}

/// One of the eighteen numbers that [`tally`] leaves, or of the two of [`wall`].
///
/// The answer is 0 where the eight bytes do not lie in the result.
///
/// ```
/// use entity_rules::raw;
///
/// let result = [0, 0, 0, 0, 0, 0, 0, 0, 2, 1, 0, 0, 0, 0, 0, 128, 7];
/// assert_eq!(raw::count(&result, 1), (1 << 63) + 258);
/// assert_eq!(raw::count(&result, 2), 0);
/// assert_eq!(raw::count(&[], u32::MAX), 0);
/// ```
#[must_use]
pub fn count(result: &[u8], index: u32) -> u64 {
    rulecheck_count(result, index)
}

/// One of the numbers in a result: 0 number, 1 family, 2 detail, 3 place, 4 over place, 5 passed, 6 path length, after [`check`] 7 how many marks, after [`explain`] 8
/// whether the message did not fit and 9 its length; after [`widens`], [`openings`], [`from_json`] and [`to_json`] their own. Or one of the marks in a list.
///
/// The answer is 0 where the four bytes do not lie in the result.
///
/// ```
/// use entity_rules::raw;
///
/// let result = [0, 0, 0, 0, 2, 1, 0, 0, 7];
/// assert_eq!(raw::field(&result, 1), 258);
/// assert_eq!(raw::field(&result, 2), 0);
/// assert_eq!(raw::field(&[], u32::MAX), 0);
/// ```
#[must_use]
pub fn field(result: &[u8], index: u32) -> u32 {
    rulecheck_field(result, index)
}

/// The seven numbers of a result, or fields of an instant.
pub(crate) fn numbers(result: &[u8]) -> [u32; 7] {
    [0, 1, 2, 3, 4, 5, 6].map(|index| field(result, index))
}

/// The version of the library that is linked: major, minor and patch, eight bits for each of the last two.
///
/// ```
/// assert_eq!(entity_rules::raw::version(), 0x00_03_00);
/// ```
#[must_use]
pub fn version() -> u32 {
    rulecheck_version()
}

/// Twice the number of digits that were compared with those of 2^1024 - 2^970, and 1 more if the text is a finite number.
///
/// [`finite`](crate::finite()) takes the answer apart.
///
/// ```
/// use entity_rules::raw;
///
/// assert_eq!(raw::finite(b"1e307"), 1);
/// assert_eq!(raw::finite(b"1.7e308"), 2 * 3 + 1);
/// assert_eq!(raw::finite(b"1.8e308"), 2 * 2);
/// assert_eq!(raw::finite(b"1.8e"), 0);
/// ```
#[must_use]
pub fn finite(text: &[u8]) -> u32 {
    rulecheck_finite(text)
}

/// Reads an instant and answers 0; `fields` takes its year, month, day, hour, minute, second and nanoseconds as seven numbers, which [`field`] reads.
///
/// Fields under 28 bytes are 3, then a text that is not an instant is 20; in both cases the fields stay as they are.
///
/// ```
/// use entity_rules::raw;
///
/// let mut fields = [0; 28];
/// assert_eq!(raw::instant(b"2024-02-29 23:59:60.5", &mut fields), 0);
/// assert_eq!([0, 1, 2].map(|index| raw::field(&fields, index)), [2024, 2, 29]);
/// assert_eq!([3, 4, 5, 6].map(|index| raw::field(&fields, index)), [23, 59, 60, 500_000_000]);
/// assert_eq!(raw::instant(b"2023-02-29", &mut fields), 20);
/// assert_eq!(raw::instant(b"2023-02-29", &mut fields[..27]), 3);
/// assert_eq!(raw::field(&fields, 0), 2024);
/// ```
pub fn instant(text: &[u8], fields: &mut [u8]) -> u32 {
    rulecheck_instant(text, fields.into())
}
