//! What the tests of the seven acts share.
//!
//! | module | what it holds |
//! |---|---|
//! | [`acts`] | the acts as the C interface has them, and the reference behind it |
//! | [`call`] | a call of an act, and its answer |
//! | [`lent`] | memory that shows a step outside a lent slice |
//! | [`trial`] | runs a call over lent memory and judges every lent cell |
//! | `library` | the static library behind the same interface (feature `library`) |
//! | `replay` | case lines answered through the C interface (feature `library`) |
//! | [`data`] | the conformance cases and peer files |
//! | [`random`] | random numbers from a seed |
//! | [`model`] | the points of a file as maps |
//! | [`parts`] | images put together from parts, in forms our writer would not choose |
//! | [`damage`] | faults in parts, images and rolls |
//! | [`scene`] | what a generated case is about |
//! | [`tally`] | how often each act gave each answer |

#![deny(unsafe_code)]

pub mod acts;
pub mod call;
pub mod damage;
pub mod data;
pub mod lent;
pub mod model;
pub mod parts;
pub mod random;
pub mod scene;
pub mod tally;
pub mod trial;

#[cfg(feature = "library")]
#[allow(unsafe_code)]
pub mod library;

#[cfg(feature = "library")]
pub mod replay;

/// Makes each function, which takes a `&mut Trial`, a test of the reference, and with the feature
/// `library` a test of the library in guarded memory.
#[macro_export]
macro_rules! test_implementations {
    ($($test:ident),+ $(,)?) => {
        mod reference {
            $(
                #[test]
                fn $test() {
                    use $crate::{acts::Reference, lent::Padded, trial::Trial};
                    super::$test(&mut Trial::new(&Reference, &Padded));
                }
            )+
        }

        #[cfg(feature = "library")]
        mod library {
            $(
                #[test]
                fn $test() {
                    use $crate::{library::Guarded, library::Library, trial::Trial};
                    super::$test(&mut Trial::new(&Library, &Guarded::After));
                }
            )+
        }
    };
}
