use crate::answer::{health_in, is_name, member_in, table_in, text_at, Health, Member, Table};
use crate::connection::Connection;
use crate::error::Error;
use crate::json::Json;
use crate::watch::{Pace, Watch};
use std::time::{Duration, Instant};

/// Where a node's status server listens if nothing else is said.
pub const DEFAULT_AT: &str = "127.0.0.1:8946";

/// How long a question may take if nothing else is said.
pub const DEFAULT_TIMEOUT: Duration = Duration::from_secs(5);

/// The longest that a node lets a question for changes wait.
pub const MAX_WAIT: Duration = Duration::from_secs(30);

/// Asks one node. Each question has a connection of its own, and is asked once; a [`Watch`] keeps one.
///
/// ```no_run
/// # fn main() -> Result<(), lg_members::Error> {
/// let client = lg_members::Client::default();
/// println!("{} members live", client.health()?.live);
/// # Ok(())
/// # }
/// ```
#[derive(Clone, Debug)]
pub struct Client {
    pub(crate) at: String,
    pub(crate) timeout: Duration,
    pub(crate) wait: Duration,
    pub(crate) pace: Pace,
}

impl Default for Client {
    /// A client of the node at [`DEFAULT_AT`].
    fn default() -> Client {
        Client::new(DEFAULT_AT)
    }
}

impl Client {
    /// A client of the node whose status server listens at `ADDR:PORT`, with an IPv6 address in brackets. If the text
    /// is something else, each question says so.
    pub fn new(at: impl Into<String>) -> Client {
        Client {
            at: at.into(),
            timeout: DEFAULT_TIMEOUT,
            wait: MAX_WAIT,
            pace: Pace::USUAL,
        }
    }

    /// The same with another time for a question, from the connecting to the last byte of the answer, a day at most. A
    /// question of a [`Watch`] may take so much longer than it waits at the node.
    #[must_use]
    pub fn with_timeout(mut self, timeout: Duration) -> Client {
        self.timeout = timeout.min(Duration::from_secs(86_400));
        self
    }

    /// The same with another time for which a question of a [`Watch`] waits at the node: a millisecond to [`MAX_WAIT`].
    #[must_use]
    pub fn with_wait(mut self, wait: Duration) -> Client {
        self.wait = wait.clamp(Duration::from_millis(1), MAX_WAIT);
        self
    }

    /// The same with other waits between two tries, and another time that a connection may be idle. It is there for
    /// tests.
    #[doc(hidden)]
    #[must_use]
    pub fn with_pace(mut self, first: Duration, longest: Duration, idle: Duration) -> Client {
        self.pace = Pace {
            first,
            longest,
            idle,
        };
        self
    }

    /// The code and the JSON of one answer.
    fn asked(&self, target: &str, codes: &[u16]) -> Result<(u16, Json), Error> {
        let deadline = Instant::now() + self.timeout;
        Connection::open(&self.at, deadline)?.ask(target, deadline, codes)
    }

    /// The members that the node knows, with the node's own name.
    ///
    /// # Errors
    /// If there is no answer in time, the node is busy, or the answer is no such answer; and if the address is none.
    pub fn table(&self) -> Result<Table, Error> {
        table_in(&self.asked("/v1/members", &[200])?.1)
    }

    /// The members of [`Client::table`], in the order of names.
    ///
    /// # Errors
    /// Those of [`Client::table`].
    pub fn members(&self) -> Result<Vec<Member>, Error> {
        Ok(self.table()?.members)
    }

    /// The member of a name. None if the node doesn't know it.
    ///
    /// # Errors
    /// Those of [`Client::table`]; and if the name isn't 1 to 32 bytes of `A-Z a-z 0-9 . _ -`.
    pub fn member(&self, name: &str) -> Result<Option<Member>, Error> {
        if !is_name(name) {
            return Err(Error::BadArgument(format!(
                "{name:?} is no name of a member"
            )));
        }
        let (code, answer) = self.asked(&format!("/v1/members/{name}"), &[200, 404])?;
        if code == 404 {
            return text_at(&answer, "error").map(|_| None);
        }
        member_in(&answer).map(Some)
    }

    /// The node's health. Of a node that was ousted this is an answer too, with `ousted`.
    ///
    /// # Errors
    /// Those of [`Client::table`].
    pub fn health(&self) -> Result<Health, Error> {
        health_in(&self.asked("/v1/health", &[200, 503])?.1)
    }

    /// What changes: see [`Watch`]. Nothing is asked before the first call of `next`.
    #[must_use]
    pub fn watch(&self) -> Watch {
        Watch::new(self.clone())
    }
}
