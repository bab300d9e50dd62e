//! Values: what conditions compare, and what templates are.

use super::error::{BuildError, start};
use super::part::{Built, Part, lent, text};
use crate::number::is_number;
use crate::vocabulary::Nesting;
use std::collections::HashSet;

/// A value of a condition or template. Strings that begin with `$`, but not with `$$`, are references.
///
/// Texts, truth values and numbers turn into values by themselves.
///
/// ```
/// use entity_rules::{Template, Value};
///
/// let value = Value::object([
///     ("bars", Value::array(["$fields.bars", "none"])),
///     ("count", 12.into()),
///     ("when", Value::null()),
/// ]);
/// assert_eq!(
///     Template::new(value).sheet()?,
///     b"T\nV,7,3,\nK,4,bars\nV,6,2,\nV,5,12,$fields.bars\nV,5,4,none\nK,5,count\nV,4,2,12\nK,4,when\nV,1,0,\n"
/// );
/// # Ok::<(), entity_rules::BuildError>(())
/// ```
#[derive(Clone, Debug, PartialEq, Eq)]
pub struct Value {
    pub(crate) part: Built,
}

impl Value {
    /// The value `null`.
    ///
    /// ```
    /// # use entity_rules::{Template, Value};
    /// assert_eq!(Template::new(Value::null()).sheet()?, b"T\nV,1,0,\n");
    /// # Ok::<(), entity_rules::BuildError>(())
    /// ```
    #[must_use]
    pub fn null() -> Self {
        Self::leaf(1, "")
    }

    /// `true` or `false`.
    ///
    /// ```
    /// # use entity_rules::{Template, Value};
    /// assert_eq!(Template::new(Value::bool(true)).sheet()?, b"T\nV,3,0,\n");
    /// # Ok::<(), entity_rules::BuildError>(())
    /// ```
    #[must_use]
    pub fn bool(truth: bool) -> Self {
        Self::leaf(if truth { 3 } else { 2 }, "")
    }

    /// A number as JSON writes it (RFC 8259). The text is kept as it is; whether the number is finite is for the check to say.
    ///
    /// ```
    /// # use entity_rules::{Template, Value};
    /// assert_eq!(Template::new(Value::number("-0.50e9")).sheet()?, b"T\nV,4,7,-0.50e9\n");
    /// assert!(Template::new(Value::number("+1")).sheet().is_err());
    /// # Ok::<(), entity_rules::BuildError>(())
    /// ```
    #[must_use]
    pub fn number(number: &str) -> Self {
        let number = match is_number(number) {
            true => text("number", number),
            false => Err(BuildError::NotANumber {
                start: start(number),
            }),
        };
        match number {
            Ok(number) => Self::leaf(4, number),
            Err(error) => Self { part: Err(error) },
        }
    }

    /// A string; a reference where it begins with one `$`.
    ///
    /// ```
    /// # use entity_rules::{Template, Value};
    /// assert_eq!(Template::new(Value::string("$id")).sheet()?, b"T\nV,5,3,$id\n");
    /// # Ok::<(), entity_rules::BuildError>(())
    /// ```
    #[must_use]
    pub fn string(string: &str) -> Self {
        match text("string", string) {
            Ok(string) => Self::leaf(5, string),
            Err(error) => Self { part: Err(error) },
        }
    }

    /// An array.
    ///
    /// ```
    /// # use entity_rules::{Template, Value};
    /// assert_eq!(Template::new(Value::array([1, 2])).sheet()?, b"T\nV,6,2,\nV,4,1,1\nV,4,1,2\n");
    /// # Ok::<(), entity_rules::BuildError>(())
    /// ```
    #[must_use]
    pub fn array<V: Into<Value>>(elements: impl IntoIterator<Item = V>) -> Self {
        Self {
            part: array(elements),
        }
    }

    /// An object; its members keep the order given, no key twice.
    ///
    /// ```
    /// # use entity_rules::{BuildError, Template, Value};
    /// let object = Value::object([("b", 2), ("a", 1)]);
    /// assert_eq!(Template::new(object).sheet()?, b"T\nV,7,2,\nK,1,b\nV,4,1,2\nK,1,a\nV,4,1,1\n");
    ///
    /// let object = Value::object([("a", 2), ("a", 1)]);
    /// assert_eq!(Template::new(object).sheet(), Err(BuildError::KeyTwice { key: "a".to_owned() }));
    /// # Ok::<(), entity_rules::BuildError>(())
    /// ```
    #[must_use]
    pub fn object<K: AsRef<str>, V: Into<Value>>(
        members: impl IntoIterator<Item = (K, V)>,
    ) -> Self {
        Self {
            part: object(members),
        }
    }

    /// A value without members: its type in the sheet, and its text.
    fn leaf(number: u8, text: &str) -> Self {
        let head = format!("V,{number},{},", text.len());
        Self {
            part: Part::of_rule().under(&head, &[text], Nesting::Values),
        }
    }
}

fn array<V: Into<Value>>(elements: impl IntoIterator<Item = V>) -> Built {
    let mut members = Part::of_rule();
    let mut count = 0_usize;
    for element in elements {
        members.add(lent(&element.into().part)?)?;
        count = count.saturating_add(1);
    }
    members.under(&format!("V,6,{count},"), &[], Nesting::Values)
}

fn object<K: AsRef<str>, V: Into<Value>>(members: impl IntoIterator<Item = (K, V)>) -> Built {
    let mut met = HashSet::new();
    let mut entries = Part::of_rule();
    for (key, value) in members {
        let key = text("key", key.as_ref())?;
        if !met.insert(key.to_owned()) {
            return Err(BuildError::KeyTwice {
                key: key.to_owned(),
            });
        }
        entries.add_entry(&format!("K,{},", key.len()), &[key])?;
        entries.add(lent(&value.into().part)?)?;
    }
    entries.under(&format!("V,7,{},", met.len()), &[], Nesting::Values)
}

impl From<bool> for Value {
    fn from(truth: bool) -> Self {
        Self::bool(truth)
    }
}

impl From<&str> for Value {
    fn from(string: &str) -> Self {
        Self::string(string)
    }
}

impl From<String> for Value {
    fn from(string: String) -> Self {
        Self::string(&string)
    }
}

/// Infinities and NaN have no text in JSON and become an error.
impl From<f64> for Value {
    fn from(number: f64) -> Self {
        Self::number(&format!("{number:?}"))
    }
}

macro_rules! integers {
    ($($integer:ty),+) => {
        $(impl From<$integer> for Value {
            fn from(number: $integer) -> Self {
                Self::number(&number.to_string())
            }
        })+
    };
}

integers!(i8, i16, i32, i64, isize, u8, u16, u32, u64, usize);
