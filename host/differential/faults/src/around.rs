
/// The faulty model's answer, in the types of the model that it is a copy of.
pub fn answer(call: &::model::Call) -> ::model::Answer {
    let &::model::Call { kind, semantics, label, table, schema, rule, path_len, scratch_len } = call;
    own(check(&Call { kind, semantics, label, table, schema, rule, path_len, scratch_len }))
}

/// The message of its defect, if it has one.
pub fn message(call: &::model::Call) -> Option<String> {
    let &::model::Call { kind, semantics, label, table, schema, rule, path_len, scratch_len } = call;
    explain(&Call { kind, semantics, label, table, schema, rule, path_len, scratch_len }).1
}

/// The same for a key.
pub fn key_answer(call: &::model::KeyCall) -> ::model::Answer {
    let &::model::KeyCall { semantics, reader, path, schema, scratch_len } = call;
    own(check_key(&KeyCall { semantics, reader, path, schema, scratch_len }))
}

/// The same for a table to load: the number, and what is left of a buffer of zeros.
pub fn load_answer(table: &[u8], buffer_len: usize) -> (u32, Vec<u8>) {
    let mut buffer = vec![0; buffer_len];
    (load_table(table, &mut buffer), buffer)
}

/// The same for a rule book.
pub fn tally_answer(call: &::model::BookCall) -> ::model::TallyNumbers {
    let &::model::BookCall { kind, semantics, label, table, schema, book, path_len, result_len } = call;
    tally(&BookCall { kind, semantics, label, table, schema, book, path_len, result_len })
}

/// The same for a wall sheet.
pub fn wall_answer(call: &::model::WallCall) -> ([u64; 2], Vec<u8>) {
    let &::model::BookCall { kind, semantics, label, table, schema, book, path_len, result_len } = &call.book;
    let book = BookCall { kind, semantics, label, table, schema, book, path_len, result_len };
    wall(&WallCall { book, pages_len: call.pages_len })
}

/// The same for openings.
pub fn openings_answer(call: &::model::OpeningsCall) -> ([u32; 3], Vec<u32>) {
    let &::model::OpeningsCall { kind, semantics, table, schema, rule, path_len, list_len, result_len } = call;
    openings(&OpeningsCall { kind, semantics, table, schema, rule, path_len, list_len, result_len })
}

fn own(answer: Answer) -> ::model::Answer {
    let Answer { number, family, detail, place, over_place, passed, path } = answer;
    ::model::Answer { number, family, detail, place, over_place, passed, path }
}
