//! The two kinds of sheets as types of their own, so that a schema is not handed over where a rule is wanted.

use std::ops::Deref;

/// Declares a sheet that is owned, and one that is lent, which bytes of any origin can be.
macro_rules! sheet {
    ($(#[$owned_doc:meta])* $owned:ident, $(#[$lent_doc:meta])* $lent:ident) => {
        $(#[$owned_doc])*
        #[derive(Clone, Debug, PartialEq, Eq, Hash)]
        pub struct $owned(Vec<u8>);

        impl $owned {
            pub(crate) const fn new(bytes: Vec<u8>) -> Self {
                Self(bytes)
            }

            /// Its bytes.
            ///
            /// ```
            /// let sheet = entity_rules::Schema::new().sheet()?;
            /// assert_eq!(sheet.into_bytes(), b"H,0,0,-,0\n");
            /// # Ok::<(), entity_rules::BuildError>(())
            /// ```
            #[must_use]
            pub fn into_bytes(self) -> Vec<u8> {
                self.0
            }
        }

        impl Deref for $owned {
            type Target = [u8];

            fn deref(&self) -> &[u8] {
                &self.0
            }
        }

        impl AsRef<[u8]> for $owned {
            fn as_ref(&self) -> &[u8] {
                &self.0
            }
        }

        impl PartialEq<&[u8]> for $owned {
            fn eq(&self, bytes: &&[u8]) -> bool {
                self.0 == *bytes
            }
        }

        impl<const N: usize> PartialEq<&[u8; N]> for $owned {
            fn eq(&self, bytes: &&[u8; N]) -> bool {
                self.0 == *bytes
            }
        }

        impl From<$owned> for Vec<u8> {
            fn from(sheet: $owned) -> Self {
                sheet.0
            }
        }

        $(#[$lent_doc])*
        #[derive(Clone, Copy, Debug, PartialEq, Eq, Hash)]
        pub struct $lent<'a>(pub(crate) &'a [u8]);

        impl<'a> From<&'a $owned> for $lent<'a> {
            fn from(sheet: &'a $owned) -> Self {
                Self(sheet)
            }
        }

        impl<'a> From<&'a [u8]> for $lent<'a> {
            fn from(bytes: &'a [u8]) -> Self {
                Self(bytes)
            }
        }

        impl<'a> From<&'a Vec<u8>> for $lent<'a> {
            fn from(bytes: &'a Vec<u8>) -> Self {
                Self(bytes)
            }
        }

        impl<'a, const N: usize> From<&'a [u8; N]> for $lent<'a> {
            fn from(bytes: &'a [u8; N]) -> Self {
                Self(bytes)
            }
        }
    };
}

sheet! {
    /// The sheet of a schema, as [`Schema::sheet`](crate::Schema::sheet) writes it.
    ///
    /// ```
    /// use entity_rules::{check_rule, Condition, Kind, Rule, Schema, Semantics};
    ///
    /// let (schema, rule) = (Schema::new().sheet()?, Rule::new(Condition::literal(true)).sheet()?);
    /// assert!(check_rule(Kind::Invariant, Semantics::Kernel1, "r", &schema, &rule)?.is_accepted());
    /// # Ok::<(), Box<dyn std::error::Error>>(())
    /// ```
    ///
    /// Exchanged, they do not compile:
    ///
    /// ```compile_fail
    /// use entity_rules::{check_rule, Condition, Kind, Rule, Schema, Semantics};
    ///
    /// let (schema, rule) = (Schema::new().sheet()?, Rule::new(Condition::literal(true)).sheet()?);
    /// assert!(check_rule(Kind::Invariant, Semantics::Kernel1, "r", &rule, &schema)?.is_accepted());
    /// # Ok::<(), Box<dyn std::error::Error>>(())
    /// ```
    SchemaSheet,
    /// A schema sheet that is lent to a call: a [`SchemaSheet`], or bytes from elsewhere.
    ///
    /// ```
    /// use entity_rules::{Schema, SchemaBytes};
    ///
    /// let sheet = Schema::new().sheet()?;
    /// assert_eq!(SchemaBytes::from(&sheet), SchemaBytes::from(b"H,0,0,-,0\n"));
    /// # Ok::<(), entity_rules::BuildError>(())
    /// ```
    SchemaBytes
}

sheet! {
    /// The sheet of a rule or template, as [`Rule::sheet`](crate::Rule::sheet) and [`Template::sheet`](crate::Template::sheet) write it.
    ///
    /// ```
    /// let sheet = entity_rules::Template::new("$id").sheet()?;
    /// assert!(sheet.starts_with(b"T\n"));
    /// # Ok::<(), entity_rules::BuildError>(())
    /// ```
    RuleSheet,
    /// A rule sheet that is lent to a call: a [`RuleSheet`], or bytes from elsewhere.
    ///
    /// ```
    /// use entity_rules::{RuleBytes, Template};
    ///
    /// let sheet = Template::new("$id").sheet()?;
    /// assert_eq!(RuleBytes::from(&sheet), RuleBytes::from(b"T\nV,5,3,$id\n"));
    /// # Ok::<(), entity_rules::BuildError>(())
    /// ```
    RuleBytes
}
