//! One error over all that can go wrong with a night.

use std::{error, fmt};

use crate::{Refusal, Unfit};

/// What went wrong with a night, for whoever makes, pairs and audits one in a single function: each of the two errors
/// becomes this one by `?`, and [`source`](error::Error::source) has it back, with the details in words.
///
/// ```
/// use bristlefrost::{audit, pair, Error, Refusal, Sheet};
///
/// fn total(table: &str) -> Result<i64, Error> {
///     let night = Sheet::from_table(table)?;
///     let slip = pair(&night)?;
///     Ok(audit(&night.bytes(), &slip.bytes()?)?.total)
/// }
///
/// assert_eq!(total("3 1 0\n0 0 2\n4 1 0\n").unwrap(), 1);
/// let error = total("barred\n").unwrap_err();
/// assert_eq!(error.to_string(), "refused 20 place 0");
/// let source = std::error::Error::source(&error).and_then(|source| source.downcast_ref());
/// assert_eq!(source, Some(&Refusal::NoPairing { rows: 1 }));
/// ```
#[derive(Clone, Debug, PartialEq, Eq)]
#[non_exhaustive]
pub enum Error {
    /// A table, sheet, slip or list of references is not one.
    Unfit(Unfit),
    /// The archive refused.
    Refused(Refusal),
}

impl fmt::Display for Error {
    fn fmt(&self, out: &mut fmt::Formatter<'_>) -> fmt::Result {
        match self {
            Error::Unfit(_) => write!(out, "the table, sheet, slip or list is unfit"),
            Error::Refused(refusal) => write!(out, "refused {} place {}", refusal.number(), refusal.place()),
        }
    }
}

impl error::Error for Error {
    fn source(&self) -> Option<&(dyn error::Error + 'static)> {
        Some(match self {
            Error::Unfit(unfit) => unfit,
            Error::Refused(refusal) => refusal,
        })
    }
}

impl From<Unfit> for Error {
    fn from(unfit: Unfit) -> Self {
        Error::Unfit(unfit)
    }
}

impl From<Refusal> for Error {
    fn from(refusal: Refusal) -> Self {
        Error::Refused(refusal)
    }
}
