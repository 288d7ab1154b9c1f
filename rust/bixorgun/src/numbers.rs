use std::fmt;
use std::iter::FusedIterator;

macro_rules! number {
    ($(#[$doc:meta])* $name:ident) => {
        $(#[$doc])*
        #[derive(Clone, Copy, Debug, PartialEq, Eq, PartialOrd, Ord, Hash)]
        pub struct $name(pub u8);

        impl From<u8> for $name {
            fn from(number: u8) -> Self {
                $name(number)
            }
        }

        impl From<$name> for u8 {
            fn from(number: $name) -> u8 {
                number.0
            }
        }
    };
}

number!(
    /// A person's number, which "is never taken for a crew's".
    Person
);
number!(
    /// A crew's number.
    Crew
);
number!(
    /// An attribute's number.
    Attr
);
number!(
    /// The number of a value of an attribute.
    Value
);
number!(
    /// The number of an administrator's role.
    Role
);

macro_rules! set {
    ($(#[$doc:meta])* $name:ident($bits:ty) of $number:ident) => {
        $(#[$doc])*
        #[derive(Clone, Copy, Default, PartialEq, Eq, PartialOrd, Ord, Hash)]
        pub struct $name($bits);

        impl $name {
            /// The set whose numbers have a bit, "weight 2^v for number v".
            #[must_use]
            pub const fn from_bits(bits: $bits) -> Self {
                $name(bits)
            }

            /// The set as bits.
            #[must_use]
            pub const fn bits(self) -> $bits {
                self.0
            }

            /// Whether a number is in the set.
            #[must_use]
            pub fn contains(self, number: $number) -> bool {
                u32::from(number.0) < <$bits>::BITS && self.0 >> number.0 & 1 == 1
            }

            /// How many numbers the set has.
            #[must_use]
            pub const fn len(self) -> usize {
                self.0.count_ones() as usize
            }

            /// Whether the set has no number.
            #[must_use]
            pub const fn is_empty(self) -> bool {
                self.0 == 0
            }

            /// The numbers of the set, rising.
            pub fn iter(self) -> Numbers<$number> {
                self.into_iter()
            }
        }

        impl IntoIterator for $name {
            type Item = $number;
            type IntoIter = Numbers<$number>;

            fn into_iter(self) -> Numbers<$number> {
                Numbers { rest: u32::from(self.0), number: $number }
            }
        }

        impl FromIterator<$number> for $name {
            /// The set of the numbers.
            ///
            /// # Panics
            ///
            /// On a number that the set has no bit for.
            fn from_iter<I: IntoIterator<Item = $number>>(numbers: I) -> Self {
                $name(numbers.into_iter().fold(0, |bits, number| {
                    assert!(u32::from(number.0) < <$bits>::BITS, "{number:?} has no bit in {}", stringify!($name));
                    bits | 1 << number.0
                }))
            }
        }

        impl fmt::Debug for $name {
            fn fmt(&self, f: &mut fmt::Formatter<'_>) -> fmt::Result {
                f.debug_set().entries(self.iter().map(u8::from)).finish()
            }
        }
    };
}

set!(
    /// A set of values of one attribute.
    ///
    /// ```
    /// use bixorgun::{Value, Values};
    ///
    /// let set = Values::from_bits(0b101);
    /// assert!(set.iter().eq([Value(0), Value(2)]));
    /// assert!(set.contains(Value(2)) && !set.contains(Value(1)));
    /// ```
    Values(u16) of Value
);
set!(
    /// A set of crews.
    ///
    /// ```
    /// use bixorgun::{Crew, Crews};
    ///
    /// let set: Crews = [Crew(31), Crew(0)].into_iter().collect();
    /// assert_eq!(set.bits(), 0x8000_0001);
    /// assert_eq!(format!("{set:?}"), "{0, 31}");
    /// ```
    Crews(u32) of Crew
);

/// Iterates over the numbers of a set, rising.
#[derive(Clone, Debug)]
#[must_use = "an iterator does nothing until it is used"]
pub struct Numbers<N> {
    rest: u32,
    number: fn(u8) -> N,
}

impl<N> Iterator for Numbers<N> {
    type Item = N;

    fn next(&mut self) -> Option<N> {
        if self.rest == 0 {
            return None;
        }
        let lowest = self.rest.trailing_zeros() as u8;
        self.rest &= self.rest - 1;
        Some((self.number)(lowest))
    }

    fn size_hint(&self) -> (usize, Option<usize>) {
        let len = self.rest.count_ones() as usize;
        (len, Some(len))
    }
}

impl<N> ExactSizeIterator for Numbers<N> {}
impl<N> FusedIterator for Numbers<N> {}
