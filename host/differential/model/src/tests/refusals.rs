//! Refusals (docs/FORMAT.md, "Answers").

use super::*;
use table::TABLE_BYTES;

const GOOD: Call = Call {
    kind: 8,
    semantics: 4,
    label: b"",
    table: b"",
    schema: b"H,0,0,-,0\n",
    rule: b"T\nV,1,0,\n",
    path_len: PATH_BYTES,
    scratch_len: SCRATCH_WORDS,
};

/// The number of the answer to a good call after one change to it.
fn after<'a>(change: impl FnOnce(&mut Call<'a>)) -> u32 {
    let mut call = GOOD;
    change(&mut call);
    check(&call).number
}

#[test]
fn stand_in_their_order() {
    assert_eq!(check(&GOOD), Answer::default());
    let mut call = GOOD;
    call.rule = b"";
    assert_eq!(line(&check(&call)), "5,0,0,0,0,0,");
    call.schema = b"";
    assert_eq!(line(&check(&call)), "4,0,0,0,0,0,");
    let stock = String::from_utf8(Table::stock().write()).unwrap();
    let nameless = stock.replace("N,1,1", "N,1,0");
    call.table = nameless.as_bytes();
    assert_eq!(line(&check(&call)), "38,0,0,0,0,0,");
    call.table = &call.table[..TABLE_BYTES - 1];
    assert_eq!(line(&check(&call)), "37,0,0,0,0,0,");
    call.path_len = 0;
    assert_eq!(line(&check(&call)), "3,0,0,0,0,0,");
    call.label = &[0xFF];
    assert_eq!(line(&check(&call)), "2,0,0,0,0,0,");
    call.kind = 0;
    assert_eq!(line(&check(&call)), "1,0,0,0,0,0,");
}

#[test]
fn settings() {
    let past_32_bits = 1 << 32;
    for kind in [0, 9, past_32_bits + 1, u64::MAX] {
        assert_eq!(after(|call| call.kind = kind), 1);
    }
    for semantics in [0, 5, past_32_bits + 1, u64::MAX] {
        assert_eq!(after(|call| call.semantics = semantics), 1);
    }
    assert_eq!(after(|call| call.kind = 1), 0);
    assert_eq!(after(|call| call.semantics = 1), 0);
}

#[test]
fn labels() {
    let long = [b'l'; 257];
    assert_eq!(after(|call| call.label = &long), 2);
    assert_eq!(after(|call| call.label = &long[1..]), 0);
    assert_eq!(after(|call| call.label = b"\xC3"), 2);
    assert_eq!(after(|call| call.label = "\n,\0é".as_bytes()), 0);
}

#[test]
fn widths() {
    assert_eq!(after(|call| call.path_len = 32_767), 3);
    assert_eq!(after(|call| call.path_len = 32_769), 0);
    assert_eq!(after(|call| call.scratch_len = 4_095), 3);
    assert_eq!(after(|call| call.scratch_len = 4_096), 0);
    assert_eq!(after(|call| call.scratch_len = 8_192), 0);
}
