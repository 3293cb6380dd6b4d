use std::fmt;
use std::time::Duration;

/// Why there is no answer of a node.
#[derive(Clone, Debug, PartialEq, Eq)]
#[non_exhaustive]
pub enum Error {
    /// Nobody listens there, the answer took too long, or it ended before it was whole.
    NoAnswer(String),
    /// The node has too many clients: it said so, or closed the connection before a byte came.
    Busy {
        /// What happened.
        words: String,
        /// After how long it wants to be asked again, 0 if it didn't say.
        retry_after: Duration,
    },
    /// What came is no answer of a node's status server.
    BadAnswer(String),
    /// The address or the name that is asked for is none. Nobody was asked.
    BadArgument(String),
}

impl fmt::Display for Error {
    fn fmt(&self, f: &mut fmt::Formatter<'_>) -> fmt::Result {
        match self {
            Error::NoAnswer(words) => write!(f, "no answer: {words}"),
            Error::Busy { words, .. } => write!(f, "the node is busy: {words}"),
            Error::BadAnswer(words) => write!(f, "bad answer: {words}"),
            Error::BadArgument(words) => write!(f, "bad argument: {words}"),
        }
    }
}

impl std::error::Error for Error {}

/// A bad answer, in words.
pub(crate) fn bad<T>(words: impl Into<String>) -> Result<T, Error> {
    Err(Error::BadAnswer(words.into()))
}

/// That the time is over.
pub(crate) fn late() -> Error {
    Error::NoAnswer("no whole answer came in time".into())
}
