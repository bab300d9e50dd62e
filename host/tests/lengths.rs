//! Sheets with a length that does not fit its text, and files that are not sheets: where the fault is reported, and how.

use entity_rules::entries::{Malformed, read_rule, read_schema, read_table};

fn told<T>(read: Result<T, Malformed>) -> String {
    read.map(|_| ()).unwrap_err().to_string()
}

#[test]
fn a_wrong_length_is_told_where_it_stands() {
    let rule = |length: &str| format!("R,-,-,\nC,8,0,\nV,5,{length},$fields.bars\nV,5,1,a\n");
    assert!(read_rule(rule("12").as_bytes()).is_ok());
    // Too short, too long by a little, by a whole entry, past the end of the sheet.
    for length in [
        "0", "1", "11", "13", "15", "16", "19", "20", "21", "22", "40", "512",
    ] {
        assert_eq!(
            told(read_rule(rule(length).as_bytes())),
            format!(
                "entry 3, byte 18: expected 12, the length of the string up to the end of its line, not {length}"
            ),
        );
    }
}

#[test]
fn each_sort_of_text_has_its_word() {
    for (sheet, expected) in [
        (
            "R,-,-,\nC,20,4,bar\nV,5,9,$fields.a\nC,1,1,\n",
            "entry 2, byte 12: expected 3, the length of the bind up to the end of its line, not 4",
        ),
        (
            "T\nV,7,1,\nK,3,key1\nV,1,0,\n",
            "entry 3, byte 11: expected 4, the length of the key up to the end of its line, not 3",
        ),
        (
            "T\nV,4,3,12\n",
            "entry 2, byte 6: expected 2, the length of the number up to the end of its line, not 3",
        ),
        (
            "R,7,-,release it\nC,1,1,\n",
            "entry 1, byte 2: expected 10, the length of the rule's name up to the end of its line, not 7",
        ),
        (
            "R,4,3,name, message\nC,1,1,\n",
            "entry 1, byte 4: expected lengths that add up to 13 (the bytes up to the end of the line), not 7",
        ),
    ] {
        assert_eq!(told(read_rule(sheet.as_bytes())), expected, "{sheet}");
    }
    for (sheet, expected) in [
        (
            "H,0,2,-,0\nF,1,0,0,0,5,-,bars\nF,1,0,0,0,4,-,name\n",
            "entry 2, byte 20: expected 4, the length of the field's name up to the end of its line, not 5",
        ),
        (
            "H,0,2,-,0\nF,1,0,0,0,24,-,bars\nF,1,0,0,0,4,-,name\n",
            "entry 2, byte 20: expected 4, the length of the field's name up to the end of its line, not 24",
        ),
        (
            "H,0,1,-,0\nF,11,0,0,0,4,5,yarnkind\n",
            "entry 2, byte 23: expected lengths that add up to 8 (the bytes up to the end of the line), not 9",
        ),
    ] {
        assert_eq!(told(read_schema(sheet.as_bytes())), expected, "{sheet}");
    }
}

#[test]
fn a_text_may_go_past_the_end_of_a_line() {
    // The length is right, and another entry is at fault.
    let rule = b"R,3,-,a\nb\nC,8,0,\nV,5,3,x\ny\nV,9,0,\n";
    assert_eq!(
        told(read_rule(rule)),
        "entry 4, byte 29: expected the type of a value, 1 to 7"
    );
    // Of two texts that do, the one is right.
    let rule = b"R,3,-,a\nb\nC,8,0,\nV,5,12,x\nV,3,0,\n";
    assert_eq!(
        told(read_rule(rule)),
        "entry 3, byte 21: expected 1, the length of the string up to the end of its line, not 12"
    );
}

#[test]
fn what_is_no_sheet_is_told_apart() {
    let json =
        "; this looks like JSON; sheets are what the builders write (docs/FORMAT.md, \"Sheets\")";
    for text in ["{\"fields\": {}}", "[1]", "\n  { }"] {
        let text = text.as_bytes();
        assert_eq!(
            told(read_schema(text)),
            format!("entry 1, byte 0: expected `H`, which begins a schema sheet{json}")
        );
        assert!(told(read_rule(text)).ends_with(json));
        assert!(told(read_table(text)).ends_with(json));
    }
    assert!(
        told(read_schema(b"\xEF\xBB\xBFH,0,0,-,0\n"))
            .ends_with("; a sheet has no byte order mark (docs/FORMAT.md, \"Sheets\")")
    );
    assert!(told(read_schema(b"")).ends_with("which begins a schema sheet"));
    assert!(told(read_schema(b"fields: {}")).ends_with("which begins a schema sheet"));
}

#[test]
fn a_sheet_that_was_cut_is_told_as_such() {
    let sheet = b"R,-,-,\nC,20,3,ba";
    assert_eq!(
        told(read_rule(sheet)),
        "entry 2, byte 14: expected a bind of 3 bytes, but the sheet ends"
    );
}
