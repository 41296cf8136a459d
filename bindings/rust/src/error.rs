//! Why a function refuses.

use std::fmt;

/// Defines [`Error`] from one table: number, variant, sentence.
macro_rules! errors {
    ($($number:literal $name:ident $sentence:literal)*) => {
        /// Why a function refuses. Each has a number, which the C interface returns.
        #[derive(Clone, Copy, Debug, PartialEq, Eq, Hash)]
        #[non_exhaustive]
        pub enum Error {
            $(
                #[doc = concat!(stringify!($number), ": ", $sentence, ".")]
                $name = $number,
            )*
        }

        impl Error {
            /// All errors, in the order of their numbers.
            pub const ALL: &'static [Error] = &[$(Error::$name),*];

            /// The number of the error, 1 or more.
            pub fn number(self) -> u8 {
                self as u8
            }

            /// The name of the error: that of its variant.
            pub fn name(self) -> &'static str {
                match self {
                    $(Error::$name => stringify!($name),)*
                }
            }

            /// What is wrong, as a sentence without its full stop.
            pub fn sentence(self) -> &'static str {
                match self {
                    $(Error::$name => $sentence,)*
                }
            }

            /// The error of a number.
            ///
            /// ```
            /// use tsm::Error;
            /// assert_eq!(Error::from_number(12), Some(Error::Checksum));
            /// assert_eq!(Error::from_number(0), None);
            /// ```
            pub fn from_number(number: u8) -> Option<Error> {
                match number {
                    $($number => Some(Error::$name),)*
                    _ => None,
                }
            }
        }
    };
}

errors! {
    1 ImageLength "the image is shorter than 13 bytes or longer than 1,048,576"
    2 Magic "the image does not start with 16 D1 16 D1"
    3 Version "the version is not 1"
    4 IndexStart "the index starts inside the header, or past the start of the footer"
    5 EntryPastIndex "an index entry runs past the end of the index"
    6 KeyLength "a key is empty or longer than 1,024 bytes"
    7 UnknownKind "the kind of a key is neither integer nor boolean"
    8 NoBlocks "a key has no blocks"
    9 KeyOrder "a key is not above the key before it"
    10 TimeOrder "the times of an index entry are not in order"
    11 BlockPlace "a block is misplaced or too small, or the blocks do not end where the index starts"
    12 Checksum "the checksum of a block is wrong"
    13 BlockHead "the head of a block is malformed, or a section of it is empty"
    14 Timestamps "the timestamps of a block are malformed"
    15 Values "the values of a block are malformed, or not as many as its timestamps"
    16 TimesDiffer "the first or last time of a block is not the one in the index"
    17 NoSuchKey "the image has no such key"
    18 NoEntry "the key has no block that covers the time"
    19 ShortBuffer "a lent buffer is too short for the whole result"
    20 BadRoll "the roll is malformed"
    21 KindClash "a key has different kinds in the two images"
    22 ImageTooLong "the written image would be longer than 1,048,576 bytes"
    23 NoPoint "the key has no point at exactly this time"
}

impl fmt::Display for Error {
    fn fmt(&self, f: &mut fmt::Formatter<'_>) -> fmt::Result {
        f.write_str(self.sentence())
    }
}

impl std::error::Error for Error {}

#[cfg(test)]
mod tests {
    use super::Error;

    #[test]
    fn numbers_go_from_1_without_a_gap() {
        for (rank, error) in Error::ALL.iter().enumerate() {
            assert_eq!(usize::from(error.number()), rank + 1);
            assert_eq!(Error::from_number(error.number()), Some(*error));
        }
        assert_eq!(Error::ALL.len(), 23);
        assert_eq!(Error::from_number(24), None);
    }
}
