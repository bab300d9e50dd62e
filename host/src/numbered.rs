//! Enums whose values have a number in docs/FORMAT.md and a text.

/// Declares such an enum: each value with its number and the text that it is displayed as.
macro_rules! numbered {
    ($(#[$outer:meta])* $name:ident { $($(#[$inner:meta])* $value:ident = $number:literal, $text:literal;)+ }) => {
        $(#[$outer])*
        #[derive(Clone, Copy, Debug, PartialEq, Eq, Hash, PartialOrd, Ord)]
        #[repr(u32)]
        pub enum $name {
            $(
                $(#[$inner])*
                #[doc = ""]
                #[doc = concat!("Displayed as: ", $text)]
                $value = $number,
            )+
        }

        impl $name {
            /// Every value, by rising number.
            ///
            /// ```
            #[doc = concat!("use entity_rules::", stringify!($name), " as All;")]
            /// assert!(All::ALL.windows(2).all(|two| two[0].number() < two[1].number()));
            /// ```
            pub const ALL: &'static [$name] = &[$($name::$value),+];

            /// The number that stands for it in a call, in a sheet or in an answer.
            ///
            /// ```
            #[doc = concat!("use entity_rules::", stringify!($name), " as All;")]
            /// assert_eq!(All::ALL[0].number(), All::ALL[0] as u32);
            /// ```
            #[must_use]
            pub const fn number(self) -> u32 {
                self as u32
            }

            /// What a number stands for, or none.
            ///
            /// ```
            #[doc = concat!("use entity_rules::", stringify!($name), " as All;")]
            /// assert!(All::ALL.iter().all(|&one| All::from_number(one.number()) == Some(one)));
            /// assert_eq!(All::from_number(0), None);
            /// ```
            #[must_use]
            pub const fn from_number(number: u32) -> Option<Self> {
                match number {
                    $($number => Some(Self::$value),)+
                    _ => None,
                }
            }

            /// Its name in Rust, as in entity-runtime where it has one there.
            ///
            /// ```
            #[doc = concat!("use entity_rules::", stringify!($name), " as All;")]
            /// assert_eq!(All::ALL[0].name(), format!("{:?}", All::ALL[0]));
            /// ```
            #[must_use]
            pub const fn name(self) -> &'static str {
                match self {
                    $(Self::$value => stringify!($value),)+
                }
            }

            /// The text that it is displayed as.
            ///
            /// ```
            #[doc = concat!("use entity_rules::", stringify!($name), " as All;")]
            /// assert_eq!(All::ALL[0].text(), All::ALL[0].to_string());
            /// ```
            #[must_use]
            pub const fn text(self) -> &'static str {
                match self {
                    $(Self::$value => $text,)+
                }
            }
        }

        impl std::fmt::Display for $name {
            fn fmt(&self, f: &mut std::fmt::Formatter<'_>) -> std::fmt::Result {
                f.pad(self.text())
            }
        }
    };
}

pub(crate) use numbered;
