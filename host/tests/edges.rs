//! The edges of docs/FORMAT.md, written with the builders.

use entity_rules::{
    CollectionFault, Condition, DefectNumber, Detail, Field, FieldKind, InstantFault, Kind,
    ReferenceFault, Rule, Schema, Semantics, Value, Verdict, check_rule,
};

/// A record with an array, two unions, and an open array of arguments.
fn schema() -> Schema {
    Schema::new()
        .field(Field::new("a", FieldKind::Array).items(FieldKind::Integer))
        .field(Field::new("u", FieldKind::Union).tag("sort"))
        .field(Field::new("v", FieldKind::Union).tag("value"))
        .argument(Field::new("list", FieldKind::Array))
}

fn verdict(kind: Kind, condition: Condition) -> Verdict {
    let schema = schema().sheet().expect("a small schema");
    let rule = Rule::new(condition).sheet().expect("a small rule");
    check_rule(kind, Semantics::Service1, "r", &schema, &rule).expect("sheets that are read")
}

/// Number and detail under a precondition, or none if it is accepted.
fn defect(condition: Condition) -> Option<(DefectNumber, Detail)> {
    let verdict = verdict(Kind::Precondition, condition);
    verdict
        .defect()
        .map(|defect| (defect.number, defect.detail))
}

fn reference(text: &str) -> Option<(DefectNumber, Detail)> {
    defect(Condition::exists(text))
}

fn unreadable(fault: ReferenceFault) -> Option<(DefectNumber, Detail)> {
    Some((DefectNumber::Reference, Detail::Reference(fault)))
}

/// A quantifier over `over` inside a binder that goes over the array.
fn inside(bind: &str, over: &str, body: Condition) -> Option<(DefectNumber, Detail)> {
    defect(Condition::for_all(
        bind,
        "$fields.a",
        Condition::for_any("inner", over, body),
    ))
}

fn always() -> Condition {
    Condition::literal(true)
}

fn no_collection(fault: CollectionFault) -> Option<(DefectNumber, Detail)> {
    Some((DefectNumber::Over, Detail::Over(fault)))
}

fn before(text: &str) -> Option<(DefectNumber, Detail)> {
    defect(Condition::before(text, "2024-01-01T23:59:60.123456789Z"))
}

fn no_instant(fault: InstantFault) -> Option<(DefectNumber, Detail)> {
    Some((DefectNumber::Instant, Detail::Instant(fault)))
}

#[test]
fn conditions_nest_32_deep() {
    let nested = |depth| (1..depth).fold(always(), |condition, _| Condition::not(condition));
    assert_eq!(defect(nested(32)), None);
    assert_eq!(defect(nested(33)), Some((DefectNumber::Deep, Detail::None)));
    let empty =
        |depth| (1..depth).fold(Condition::all([]), |condition, _| Condition::not(condition));
    assert_eq!(defect(empty(32)), Some((DefectNumber::Empty, Detail::None)));
    assert_eq!(defect(empty(33)), Some((DefectNumber::Deep, Detail::None)));
}

#[test]
fn binders_win_over_the_names_of_a_kind() {
    let bound = Condition::for_all("fields", "$args.list", Condition::exists("$fields"));
    assert!(verdict(Kind::CreateSelector, bound).is_accepted());
    assert!(!verdict(Kind::CreateSelector, Condition::exists("$fields")).is_accepted());
}

#[test]
fn the_first_byte_of_in_is_left_off() {
    assert_eq!(inside("b", "xb", always()), None);
    assert_eq!(inside("b", "bb", always()), None);
    assert_eq!(inside("$b", "$$b", always()), None);
    assert_eq!(
        inside("b", "éb", always()),
        no_collection(CollectionFault::NoName)
    );
}

#[test]
fn an_unknown_element_has_every_path() {
    assert_eq!(
        inside("b", "$b", Condition::exists("$inner.any.path")),
        None
    );
    assert_eq!(inside("b", "$b", Condition::exists("$inner.")), None);
}

#[test]
fn counts_are_no_collections() {
    let over = |over: &str| defect(Condition::for_all("b", over, always()));
    assert_eq!(
        over("$fields.a.count"),
        no_collection(CollectionFault::NoMember)
    );
    let number = Condition::for_all("b", Value::from(1), always());
    assert_eq!(defect(number), no_collection(CollectionFault::NotAString));
}

#[test]
fn instants() {
    assert_eq!(before("2024-02-29"), None);
    assert_eq!(before("\u{3000}0000-02-29\u{85}"), None);
    assert_eq!(before("2023-02-29"), no_instant(InstantFault::Unreadable));
    assert_eq!(before("2024-01-01Z"), no_instant(InstantFault::Unreadable));
    assert_eq!(before(" $id"), no_instant(InstantFault::Unreadable));
    assert_eq!(before("$$2024-01-01"), no_instant(InstantFault::Escaped));
    assert_eq!(before("$id"), None);
}

#[test]
fn ordinals_have_no_leading_zero() {
    assert_eq!(reference("$fields.a.0"), None);
    assert_eq!(reference("$fields.a.99999999999999999999"), None);
    assert_eq!(
        reference("$fields.a.01"),
        unreadable(ReferenceFault::ArrayMember)
    );
}

#[test]
fn unions_have_a_tag_and_content() {
    assert_eq!(reference("$fields.u.value.any"), None);
    assert_eq!(reference("$fields.v.content.any"), None);
    assert_eq!(reference("$fields.v.value"), None);
    assert_eq!(
        reference("$fields.v.value.any"),
        unreadable(ReferenceFault::AfterTag)
    );
    assert_eq!(
        reference("$fields.u.count"),
        unreadable(ReferenceFault::UnionMember)
    );
}

#[test]
fn references_to_nothing() {
    for text in ["$", "$.x", "$state.x", "$state"] {
        assert_eq!(
            reference(text),
            unreadable(ReferenceFault::NoSuchReference),
            "{text}"
        );
    }
    assert_eq!(reference("$fields."), unreadable(ReferenceFault::EmptyPath));
    assert_eq!(reference("$$state"), None);
}

#[test]
fn literals_keep_their_family_in_a_body() {
    let huge = Condition::for_all(
        "b",
        "$fields.a",
        Condition::eq("$b", Value::number("1e309")),
    );
    let verdict = verdict(Kind::Precondition, huge);
    let defect = verdict.defect().expect("a defect");
    assert_eq!(
        (defect.number, defect.family.number(), defect.over_place),
        (DefectNumber::Literal, 1, None)
    );
}
