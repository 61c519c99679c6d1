//! What a call names beside its rooms: an edition (request L14) and a limit; and whether it is a guard's (request L9).

#[derive(Clone, Copy, PartialEq, Eq, Debug)]
pub struct Terms {
    /// The number that names the edition: 1, 2, or one that is refused.
    pub edition: u32,
    pub limit: u32,
}

pub const FIRST: u32 = 1;
pub const SECOND: u32 = 2;

/// A limit alone is of edition 1.
impl From<u32> for Terms {
    fn from(limit: u32) -> Terms {
        Terms { edition: FIRST, limit }
    }
}

/// Which entry is called, and on which terms: that of scripts, or that of guards.
#[derive(Clone, Copy, PartialEq, Eq, Debug)]
pub struct Call {
    pub is_guard: bool,
    pub terms: Terms,
}

impl Call {
    pub fn guard(terms: impl Into<Terms>) -> Call {
        Call { is_guard: true, terms: terms.into() }
    }
}

/// Terms alone are a script's.
impl From<Terms> for Call {
    fn from(terms: Terms) -> Call {
        Call { is_guard: false, terms }
    }
}

impl From<u32> for Call {
    fn from(limit: u32) -> Call {
        Terms::from(limit).into()
    }
}
