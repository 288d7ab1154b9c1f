//! What the refusals of the operations share: the table's number, its words, and a book's own refusals among them.

/// Gives an enum `Refusal`, with the case `Book` for those that give a line, its numbers for the other cases, and what
/// follows from them. A case that tells more than its number has fields, and its words name them.
macro_rules! numbered {
    ($($case:ident $({ $($field:ident),+ })? = $number:literal),+) => {
        impl Refusal {
            /// The refusal's number in the table.
            #[must_use]
            pub fn number(&self) -> u8 {
                match self {
                    Refusal::Book(refusal) => refusal.number(),
                    $(Refusal::$case { .. } => $number,)+
                }
            }
        }

        impl From<$crate::book::Refusal> for Refusal {
            fn from(refusal: $crate::book::Refusal) -> Self {
                Refusal::Book(refusal)
            }
        }

        impl std::fmt::Display for Refusal {
            fn fmt(&self, f: &mut std::fmt::Formatter<'_>) -> std::fmt::Result {
                match self {
                    Refusal::Book(refusal) => refusal.fmt(f),
                    $(Refusal::$case $({ $($field),+ })? => {
                        write!(f, "refusal {}", $number)?;
                        $($(write!(f, ", {} {}", stringify!($field), $field)?;)+)?
                        Ok(())
                    })+
                }
            }
        }

        impl std::error::Error for Refusal {}
    };
}

pub(crate) use numbered;
