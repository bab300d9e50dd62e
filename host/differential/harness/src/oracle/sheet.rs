//! The sheet of a rule in the Rust's own types, entry by entry: a second writer beside the model's.

use entity_core::{CompareOp, Condition, Quantifier, RuleDefinition};
use serde_json::Value;

pub fn of_rule(rule: &RuleDefinition) -> Vec<u8> {
    let length = |text: &Option<String>| text.as_ref().map_or("-".to_owned(), |text| text.len().to_string());
    let [name, message] = [&rule.name, &rule.message].map(|text| text.as_deref().unwrap_or_default());
    let mut sheet = format!("R,{},{},{name}{message}\n", length(&rule.name), length(&rule.message));
    condition(&rule.condition, &mut sheet);
    sheet.into_bytes()
}

fn condition(condition: &Condition, sheet: &mut String) {
    match condition {
        Condition::Literal(truth) => entry("C,1", usize::from(*truth), "", sheet),
        Condition::All { all } => children("C,2", all, sheet),
        Condition::Any { any } => children("C,3", any, sheet),
        Condition::Not { not } => {
            entry("C,4", 0, "", sheet);
            self::condition(not, sheet);
        }
        Condition::Exists { exists } => values("C,5", std::slice::from_ref(exists), sheet),
        Condition::Before { before } => values("C,6", before, sheet),
        Condition::After { after } => values("C,7", after, sheet),
        Condition::Eq { eq } => values("C,8", eq, sheet),
        Condition::Ne { ne } => values("C,9", ne, sheet),
        Condition::Gt { gt } => values("C,10", gt, sheet),
        Condition::Gte { gte } => values("C,11", gte, sheet),
        Condition::Lt { lt } => values("C,12", lt, sheet),
        Condition::Lte { lte } => values("C,13", lte, sheet),
        Condition::In { values: pair } => values("C,14", pair, sheet),
        Condition::Contains { contains } => values("C,15", contains, sheet),
        Condition::StartsWith { starts_with } => values("C,16", starts_with, sheet),
        Condition::EndsWith { ends_with } => values("C,17", ends_with, sheet),
        Condition::Compare { compare } => {
            entry("C,18", comparison(compare.op), "", sheet);
            value(&compare.left, sheet);
            value(&compare.right, sheet);
        }
        Condition::Truthy { truthy } => values("C,19", std::slice::from_ref(truthy), sheet),
        Condition::ForAll { for_all } => quantifier("C,20", for_all, sheet),
        Condition::ForAny { for_any } => quantifier("C,21", for_any, sheet),
    }
}

fn comparison(op: CompareOp) -> usize {
    match op {
        CompareOp::Eq => 1,
        CompareOp::Ne => 2,
        CompareOp::Lt => 3,
        CompareOp::Lte => 4,
        CompareOp::Gt => 5,
        CompareOp::Gte => 6,
    }
}

fn entry(head: &str, n: usize, text: &str, sheet: &mut String) {
    sheet.push_str(&format!("{head},{n},{text}\n"));
}

fn children(head: &str, children: &[Condition], sheet: &mut String) {
    entry(head, children.len(), "", sheet);
    children.iter().for_each(|child| condition(child, sheet));
}

fn values(head: &str, values: &[Value], sheet: &mut String) {
    entry(head, 0, "", sheet);
    values.iter().for_each(|operand| value(operand, sheet));
}

fn quantifier(head: &str, quantifier: &Quantifier, sheet: &mut String) {
    entry(head, quantifier.bind.len(), &quantifier.bind, sheet);
    value(&quantifier.over, sheet);
    condition(&quantifier.body, sheet);
}

fn value(operand: &Value, sheet: &mut String) {
    match operand {
        Value::Null => entry("V,1", 0, "", sheet),
        Value::Bool(false) => entry("V,2", 0, "", sheet),
        Value::Bool(true) => entry("V,3", 0, "", sheet),
        Value::Number(number) => {
            let text = number.to_string();
            entry("V,4", text.len(), &text, sheet);
        }
        Value::String(text) => entry("V,5", text.len(), text, sheet),
        Value::Array(values) => {
            entry("V,6", values.len(), "", sheet);
            values.iter().for_each(|element| value(element, sheet));
        }
        Value::Object(members) => {
            entry("V,7", members.len(), "", sheet);
            for (key, member) in members {
                entry("K", key.len(), key, sheet);
                value(member, sheet);
            }
        }
    }
}
