//! Rules whose marks are known.

use crate::case::{Case, Expect};
use crate::generate::build::{all, compare, condition, exists, holder, not, pair, quantifier, rule, schema, text};
use model::trees::{Condition, Operator, Sheet};
use model::{write_rule, write_schema};

/// Each with its marks.
pub fn edges() -> Vec<(Case, Vec<u32>)> {
    let pairs = PAIRS.iter().flat_map(|(left, right, order)| {
        [(6, left, right, *order < 0), (7, left, right, *order > 0), (6, right, left, *order > 0), (7, right, left, *order < 0)]
            .map(|(operator, left, right, truth)| (rule(pair(operator, text(left), text(right))), vec![4 + u32::from(truth)]))
    });
    let none = none().into_iter().map(|condition| (rule(condition), Vec::new()));
    let template = [(Sheet::Template(text("2024-01-01")), Vec::new())];
    pairs.chain(none).chain(places()).chain(template).map(|(sheet, marks)| (accepted(&sheet), marks)).chain(defects()).collect()
}

/// Two instants, and how the first compares with the second.
const PAIRS: [(&str, &str, i32); 17] = [
    ("2024-02-29", "2024-03-01", -1),
    ("2024-01-01", "2024-01-01 00:00:00.000Z", 0),
    ("2024-01-01", "2024-01-01", 0),
    (" 2024-01-01\n", "2024-01-01T00:00:00", 0),
    ("2024-01-01t00:00:00z", "2024-01-01 00:00:00", 0),
    ("2024-01-01T12:00:00.5", "2024-01-01T12:00:00.500000000Z", 0),
    ("2024-01-01T12:00:00.4999", "2024-01-01T12:00:00.5", -1),
    ("2024-01-01T12:00:00.000000001", "2024-01-01T12:00:00.000000002", -1),
    ("2024-01-01T12:00:00", "2024-01-01T12:00:00.000000001", -1),
    ("2024-01-01T23:58:60", "2024-01-01T23:59:00", -1),
    ("2024-01-01T23:59:60.9", "2024-01-02", -1),
    ("2024-01-01T11:59:59.9", "2024-01-01T12:00:00", -1),
    ("2024-01-31", "2024-02-01", -1),
    ("2023-12-31T23:59:60", "2024-01-01", -1),
    ("0000-01-01", "9999-12-31T23:59:60.999999999Z", -1),
    ("0999-12-31", "1000-01-01", -1),
    ("2024-09-30", "2024-10-01", -1),
];

/// Conditions that are accepted and not constant.
fn none() -> Vec<Condition> {
    let (early, late) = (|| text("2024-01-01"), || text("2024-01-02"));
    let operators = (8..=17).map(|operator| pair(operator, early(), late()));
    let references = ["$fields.d", "$id", "$args.on"].into_iter();
    let references = references.flat_map(|reference| [pair(6, text(reference), late()), pair(7, early(), text(reference))]);
    let others = [compare(3, early(), late()), exists(early()), condition(Operator::Truthy(early())), condition(Operator::Literal(true))];
    operators.chain(references).chain(others).collect()
}

/// Constants in each place, and as many as a sheet has room for.
fn places() -> Vec<(Sheet, Vec<u32>)> {
    let constant = || pair(6, text("2024-01-01"), text("2024-01-02"));
    let over = || text("$fields.a");
    let deep = (0..31).fold(constant(), |body, _| quantifier(21, "b", over(), body));
    let many = all((0..682).map(|_| constant()).collect());
    vec![
        (rule(not(constant())), vec![7]),
        (rule(not(not(constant()))), vec![9]),
        (rule(condition(Operator::Any(vec![constant(), constant()]))), vec![7, 13]),
        (rule(quantifier(20, "b", over(), constant())), vec![9]),
        (rule(all(vec![exists(text("$id")), constant()])), vec![11]),
        (rule(deep), vec![2 * (2 + 2 * 31) + 1]),
        (rule(many), (0..682).map(|index| 2 * (3 + 3 * index) + 1).collect()),
    ]
}

fn accepted(sheet: &Sheet) -> Case {
    let open = || holder(true, Vec::new());
    let sheets = (write_schema(&schema(open(), Some(open()))), write_rule(sheet));
    Case::new(2, 2, b"r", sheets.0, sheets.1).expecting(Expect::Number(0))
}

/// A constant condition, and a defect before or after it: no marks.
fn defects() -> Vec<(Case, Vec<u32>)> {
    let constant = || pair(6, text("2024-01-01"), text("2024-01-02"));
    let bad = |text: &str| exists(self::text(text));
    let sheets = [
        (18, rule(all(vec![constant(), bad("$nothing")]))),
        (18, rule(all(vec![bad("$nothing"), constant()]))),
        (20, rule(pair(6, text("2024-01-01"), text("$$2024-01-01")))),
        (20, rule(pair(7, text("2024-01-01Z"), text("2024-01-01")))),
        (16, rule(all(vec![constant(), all(Vec::new())]))),
    ];
    sheets.into_iter().map(|(number, sheet)| (accepted(&sheet).expecting(Expect::Number(number)), Vec::new())).collect()
}
