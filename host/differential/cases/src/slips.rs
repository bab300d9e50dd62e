//! The slips that are easy to make, as cases with the whole line that answers each. Two of them are changes of a schema that are not widenings.

use crate::case::Case;
use crate::generate::build::{
    element, exists, field, holder, literal, number, pair, quantifier, rule, schema, text, ARRAY, INTEGER, JSON, STRING,
};
use model::trees::{Field, Schema, Sheet};
use model::{is_widening, write_rule, write_schema};

/// What a case is about, the case, and what the program prints for it.
pub type Slip = (&'static str, Case, &'static str);

fn under(schema: &Schema, sheet: &Sheet) -> Case {
    Case::new(2, 2, b"r", write_schema(schema), write_rule(sheet))
}

/// Every slip of the list; an error if a change that is none is taken for a widening.
pub fn slips() -> Result<Vec<Slip>, String> {
    let record = |open, fields| schema(holder(open, fields), None);
    let array = record(false, vec![Field { items: element(field("", INTEGER)), ..field("a", ARRAY) }]);
    let json = record(false, vec![Field { items: element(field("", INTEGER)), ..field("a", JSON) }]);
    let bare = record(false, vec![field("a", ARRAY)]);
    let free = record(true, Vec::new());
    let added = record(true, vec![field("z", STRING)]);
    for (what, first, second) in [("a change to json", &array, &json), ("a field under an open record", &free, &added)] {
        if is_widening(first, second) {
            return Err(format!("{what} is taken for a widening"));
        }
    }
    let over = |body| rule(quantifier(20, "b", text("$fields.a"), body));
    let below = rule(exists(text("$fields.z.y")));
    let infinite = over(pair(8, number("1e309"), text("x")));
    let unknown = over(exists(text("$b.x.y")));
    Ok(vec![
        ("a quantifier over an array", under(&array, &over(literal(true))), "0,0,0,0,0,8,"),
        ("the same where the array has become json", under(&json, &over(literal(true))), "22,7,4,2,0,6,r.assert.for_all"),
        ("a path below an open record", under(&free, &below), "0,0,0,0,0,5,"),
        ("the same where a field was added there", under(&added, &below), "18,1,10,3,0,4,r.assert.exists"),
        ("a literal in a body keeps family 1", under(&array, &infinite), "14,1,0,5,0,3,r.assert.for_all.that.eq[0]"),
        ("an array that declares no element", under(&bare, &unknown), "0,0,0,0,0,9,"),
    ])
}
