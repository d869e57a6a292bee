//! Which library was linked.

use crate::answer::value;
use crate::{ffi, Error};
use core::fmt;

/// The first number of the library that this crate was written for. It rises where a program built on an older one
/// would misread or misuse a call.
pub const WRITTEN_FOR: u8 = 5;

/// The version of the linked library.
#[derive(Clone, Copy, PartialEq, Eq, Debug)]
pub struct Version {
    pub first: u8,
    pub second: u8,
}

impl fmt::Display for Version {
    fn fmt(&self, f: &mut fmt::Formatter) -> fmt::Result {
        write!(f, "{}.{}", self.first, self.second)
    }
}

/// What the linked library says of itself.
///
/// ```
/// assert_eq!(dock::version()?.first, dock::WRITTEN_FOR);
/// # Ok::<(), dock::Error>(())
/// ```
pub fn version() -> Result<Version, Error> {
    let [first, second] = value(ffi::version())?.to_be_bytes();
    Ok(Version { first, second })
}

/// Nothing where the linked library is the one that this crate was written for, else [`Error::OtherLibrary`].
/// Whoever holds a [`Dock`](crate::Dock) has asked this already; the free functions don't ask it.
pub fn check_library() -> Result<(), Error> {
    of_first_number(version()?)
}

fn of_first_number(version: Version) -> Result<(), Error> {
    if version.first == WRITTEN_FOR {
        Ok(())
    } else {
        Err(Error::OtherLibrary(version))
    }
}

#[cfg(test)]
mod tests {
    use super::*;

    #[test]
    fn the_first_number_decides() {
        assert_eq!(of_first_number(Version { first: WRITTEN_FOR, second: 9 }), Ok(()));
        for first in [WRITTEN_FOR - 1, WRITTEN_FOR + 1] {
            let other = Version { first, second: 0 };
            assert_eq!(of_first_number(other), Err(Error::OtherLibrary(other)));
        }
    }
}
