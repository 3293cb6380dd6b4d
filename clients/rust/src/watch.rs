//! Follows what changes of a node.

use crate::answer::{news_in, number_at, table_in, Change};
use crate::client::Client;
use crate::connection::Connection;
use crate::error::{bad, Error};
use crate::json::Json;
use std::collections::{BTreeSet, VecDeque};
use std::fmt;
use std::iter::FusedIterator;
use std::net::{Shutdown, TcpStream};
use std::sync::{Arc, Condvar, Mutex, MutexGuard, PoisonError};
use std::time::{Duration, Instant};

/// How long a watcher waits behind a try that failed, at first and at most, and how long a connection may have been
/// idle to be used again.
#[derive(Clone, Copy, Debug)]
pub(crate) struct Pace {
    pub(crate) first: Duration,
    pub(crate) longest: Duration,
    pub(crate) idle: Duration,
}

impl Pace {
    /// A node closes a connection after five seconds.
    pub(crate) const USUAL: Pace = Pace {
        first: Duration::from_millis(100),
        longest: Duration::from_secs(5),
        idle: Duration::from_secs(3),
    };
}

/// A try that took so long asked in no haste: behind it a watcher waits as it does at first.
const LONG_TRY: Duration = Duration::from_secs(5);

/// Whether a watcher was stopped, and the socket that it waits for.
#[derive(Default)]
struct Shared {
    state: Mutex<(bool, Option<Arc<TcpStream>>)>,
    stopped: Condvar,
}

impl Shared {
    fn state(&self) -> MutexGuard<'_, (bool, Option<Arc<TcpStream>>)> {
        self.state.lock().unwrap_or_else(PoisonError::into_inner)
    }

    fn is_stopped(&self) -> bool {
        self.state().0
    }

    /// Keeps the socket of a connection, or none. Whether the watcher goes on.
    fn keep(&self, link: Option<Arc<TcpStream>>) -> bool {
        let mut state = self.state();
        state.1 = link;
        !state.0
    }

    fn stop(&self) {
        let mut state = self.state();
        state.0 = true;
        if let Some(link) = &state.1 {
            // It fails if the node has closed it, which ends the question too.
            let _is_ended = link.shutdown(Shutdown::Both);
        }
        self.stopped.notify_all();
    }

    /// Waits until a moment, or until the watcher is stopped.
    fn wait_until(&self, moment: Instant) {
        let mut state = self.state();
        while !state.0 {
            let left = match moment.checked_duration_since(Instant::now()) {
                Some(left) if !left.is_zero() => left,
                _ => return,
            };
            state = self
                .stopped
                .wait_timeout(state, left)
                .unwrap_or_else(PoisonError::into_inner)
                .0;
        }
    }
}

/// Ends a [`Watch`] from another thread.
#[derive(Clone)]
pub struct Stopper {
    shared: Arc<Shared>,
}

impl Stopper {
    /// Ends the watcher: a `next` that waits gives None, and so does each further one. If it is connecting, it does so
    /// once that has ended, which takes the client's timeout at most.
    pub fn stop(&self) {
        self.shared.stop();
    }
}

impl fmt::Debug for Stopper {
    fn fmt(&self, f: &mut fmt::Formatter<'_>) -> fmt::Result {
        f.debug_struct("Stopper")
            .field("is_stopped", &self.shared.is_stopped())
            .finish()
    }
}

/// What changes of a node: an iterator without an end. At first it gives the whole table, then each change as it comes.
///
/// It waits for a node that isn't there, or not yet. Each try that fails is given as an error, and nothing is lost by
/// it: the next call of `next` waits and tries again. It waits for 0.1 s at first, then twice as long each time, 5 s at
/// most. If the node was started again, or if more changed than it keeps, the whole table is given anew. Before it
/// those come as forgotten who were given and aren't in it. So a map to which all changes are applied, up to one
/// without `more`, is the table of the node at that moment.
///
/// A [`Stopper`] ends it from another thread. Whoever drops it closes its connection.
///
/// ```no_run
/// let mut table = std::collections::BTreeMap::new();
/// for change in lg_members::Client::default().watch().flatten() {
///     change.apply(&mut table);
///     if !change.more {
///         println!("{} members are known", table.len());
///     }
/// }
/// ```
pub struct Watch {
    client: Client,
    shared: Arc<Shared>,
    connection: Option<Connection>,
    pending: VecDeque<Change>,
    /// Whom the changes so far leave in a table, and up to which version of which life of the node. A node draws a
    /// number when it starts, by which its lives can be told apart.
    told: BTreeSet<String>,
    version: Option<u64>,
    life: Option<u64>,
    wait: Duration,
    /// Before this moment it isn't tried again.
    rest_until: Option<Instant>,
}

impl Watch {
    pub(crate) fn new(client: Client) -> Watch {
        Watch {
            wait: client.pace.first,
            client,
            shared: Arc::default(),
            connection: None,
            pending: VecDeque::new(),
            told: BTreeSet::new(),
            version: None,
            life: None,
            rest_until: None,
        }
    }

    /// What ends it from another thread.
    #[must_use]
    pub fn stopper(&self) -> Stopper {
        Stopper {
            shared: Arc::clone(&self.shared),
        }
    }

    /// Closes the connection.
    fn drop_connection(&mut self) {
        self.connection = None;
        self.shared.keep(None);
    }

    /// Opens a connection in the place of the one before.
    fn connect(&mut self) -> Result<(), Error> {
        self.drop_connection();
        let connection = Connection::open(&self.client.at, Instant::now() + self.client.timeout)?;
        let goes_on = self.shared.keep(Some(connection.link()));
        self.connection = Some(connection);
        if goes_on {
            Ok(())
        } else {
            Err(Error::NoAnswer("it was stopped".into()))
        }
    }

    /// The answer to a question that the node may let wait. If the connection was closed behind an answer, as no node
    /// does, another is opened.
    fn ask(&mut self, target: &str, wait: Duration, codes: &[u16]) -> Result<(u16, Json), Error> {
        if !self.connection.as_ref().map_or(false, Connection::is_open) {
            self.connect()?;
        }
        let deadline = Instant::now() + wait + self.client.timeout;
        match &mut self.connection {
            Some(connection) => connection.ask(target, deadline, codes),
            None => Err(Error::NoAnswer("there is no connection".into())),
        }
    }

    /// The changes of the next answer.
    fn news(&mut self) -> Result<Vec<Change>, Error> {
        let idle = self.client.pace.idle;
        if !self
            .connection
            .as_ref()
            .map_or(false, |it| it.is_usable(idle))
        {
            self.connect()?;
            let life = self.ask_life()?;
            if self.version.is_none() || life != self.life {
                let rows = self.ask_table()?;
                self.life = life;
                return Ok(rows);
            }
        }
        self.ask_changes(self.version.unwrap_or(0))
    }

    /// The number that the node drew when it started. None if it tells none.
    fn ask_life(&mut self) -> Result<Option<u64>, Error> {
        let (code, answer) = self.ask("/v1/config", Duration::ZERO, &[200, 404])?;
        if code != 200 || answer.get("first").is_none() {
            return Ok(None);
        }
        number_at(&answer, "first").map(Some)
    }

    /// The whole table, as changes.
    fn ask_table(&mut self) -> Result<Vec<Change>, Error> {
        let table = table_in(&self.ask("/v1/members", Duration::ZERO, &[200])?.1)?;
        let (version, moment_ms) = (table.version, table.moment_ms);
        let rows = table.members.into_iter().map(|member| Change {
            version,
            moment_ms,
            name: member.name.clone(),
            member: Some(member),
            of_table: true,
            more: false,
        });
        Ok(self.anew(version, rows.collect()))
    }

    /// The changes behind a version, of which there are none if nothing changed.
    fn ask_changes(&mut self, after: u64) -> Result<Vec<Change>, Error> {
        let (begun, wait) = (Instant::now(), self.client.wait);
        let target = format!("/v1/changes?after={after}&wait_ms={}", wait.as_millis());
        let news = news_in(&self.ask(&target, wait, &[200])?.1)?;
        if news.version < after {
            self.version = None;
            return Err(Error::NoAnswer(
                "the version of the node went back: it was started again".into(),
            ));
        }
        if news.version == after && !news.changes.is_empty() {
            return bad("there are changes, and the version is that of before");
        }
        if news.missed && news.changes.is_empty() {
            return bad("the whole table has no member");
        }
        if news.changes.is_empty() && begun.elapsed() < wait / 2 {
            return bad("it said that nothing changed before its time was over");
        }
        self.wait = self.client.pace.first;
        Ok(if news.missed {
            self.anew(news.version, news.changes)
        } else {
            self.taken(news.version, news.changes)
        })
    }

    /// The rows of a whole table, and before them that those are forgotten who aren't there any more.
    fn anew(&mut self, version: u64, table: Vec<Change>) -> Vec<Change> {
        let moment_ms = table.last().map_or(0, |it| it.moment_ms);
        let table: Vec<_> = table.into_iter().filter(|it| it.member.is_some()).collect();
        let here: BTreeSet<_> = table.iter().map(|it| it.name.clone()).collect();
        let gone = self.told.difference(&here).map(|name| Change {
            version,
            moment_ms,
            name: name.clone(),
            member: None,
            of_table: true,
            more: false,
        });
        let mut rows: Vec<_> = gone.collect();
        rows.extend(table.into_iter().map(|it| Change {
            of_table: true,
            ..it
        }));
        self.taken(version, rows)
    }

    /// Notes what these changes leave in a table, and gives them.
    fn taken(&mut self, version: u64, mut rows: Vec<Change>) -> Vec<Change> {
        let count = rows.len();
        for (place, row) in rows.iter_mut().enumerate() {
            row.more = place + 1 < count;
            if row.member.is_some() {
                self.told.insert(row.name.clone());
            } else {
                self.told.remove(&row.name);
            }
        }
        self.version = Some(version);
        rows
    }

    /// Says until when to wait behind a try that failed, and took so long.
    fn rest_behind(&mut self, fault: &Error, took: Duration) {
        let Pace { first, longest, .. } = self.client.pace;
        if took > LONG_TRY {
            self.wait = first;
        }
        let asked = match fault {
            Error::Busy { retry_after, .. } => *retry_after,
            _ => Duration::ZERO,
        };
        self.rest_until = Some(Instant::now() + self.wait.max(asked.min(longest)));
        self.wait = (self.wait * 2).min(longest);
    }
}

impl Iterator for Watch {
    type Item = Result<Change, Error>;

    fn next(&mut self) -> Option<Result<Change, Error>> {
        loop {
            if let Some(moment) = self.rest_until.take() {
                self.shared.wait_until(moment);
            }
            if self.shared.is_stopped() {
                self.pending.clear();
                self.drop_connection();
                return None;
            }
            if let Some(change) = self.pending.pop_front() {
                return Some(Ok(change));
            }
            let begun = Instant::now();
            match self.news() {
                Ok(rows) => self.pending.extend(rows),
                Err(fault) => {
                    self.drop_connection();
                    if !self.shared.is_stopped() {
                        self.rest_behind(&fault, begun.elapsed());
                        return Some(Err(fault));
                    }
                }
            }
        }
    }
}

impl FusedIterator for Watch {}

impl Drop for Watch {
    fn drop(&mut self) {
        self.drop_connection();
    }
}

impl fmt::Debug for Watch {
    fn fmt(&self, f: &mut fmt::Formatter<'_>) -> fmt::Result {
        let mut shown = f.debug_struct("Watch");
        shown
            .field("client", &self.client)
            .field("version", &self.version)
            .finish_non_exhaustive()
    }
}
