//! A server of the tests' own, which answers as a node does, or as real nodes seldom do.
#![allow(dead_code)]

use lg_members::{Client, Error};
use std::collections::VecDeque;
use std::io::{BufRead, BufReader, ErrorKind, Write};
use std::net::{Shutdown, SocketAddr, TcpListener, TcpStream};
use std::sync::{Arc, Mutex, MutexGuard};
use std::thread;
use std::time::{Duration, Instant};

/// How long a test waits for what should come at once.
pub const LIMIT: Duration = Duration::from_secs(10);

/// What stands for an answer or behind one: the connection is closed there.
pub const CLOSED: &str = "\0closed";
/// What stands for an answer: the connection stays, and nothing comes on it.
pub const SILENT: &str = "\0silent";

/// An answer with a body, and with further lines of fields.
pub fn reply_with(code: u16, fields: &str, body: &str) -> String {
    format!(
        "HTTP/1.1 {code} Words\r\n{fields}Content-Length: {}\r\n\r\n{body}",
        body.len()
    )
}

pub fn reply(code: u16, body: &str) -> String {
    reply_with(code, "", body)
}

/// What a node answers if too many requests wait.
pub fn busy() -> String {
    let body = r#"{"error":"too many requests wait"}"#;
    reply_with(503, "Retry-After: 1\r\nConnection: close\r\n", body) + CLOSED
}

/// The fields of a member that is alive.
pub fn alive(name: &str) -> String {
    record(name, "alive", 0)
}

/// The fields of a member that nobody suspects.
pub fn record(name: &str, status: &str, incarnation: u64) -> String {
    format!(
        r#""name":"{name}","status":"{status}","incarnation":{incarnation},"address":"127.0.0.1","port":7101,"accuser":null"#
    )
}

/// The fields that say that a member was forgotten.
pub fn forgotten(name: &str) -> String {
    format!(r#""new":[],"status":"forgotten","name":"{name}""#)
}

/// An answer with changes: each is a version and the fields of a member.
pub fn changes(version: u64, rows: &[(u64, String)]) -> String {
    news(version, false, rows)
}

/// An answer whose changes are the whole table.
pub fn missed(version: u64, rows: &[(u64, String)]) -> String {
    news(version, true, rows)
}

fn news(version: u64, missed: bool, rows: &[(u64, String)]) -> String {
    let rows: Vec<_> = rows
        .iter()
        .map(|it| {
            format!(
                r#"{{"version":{},"moment_ms":{},{}}}"#,
                it.0,
                10 * it.0,
                it.1
            )
        })
        .collect();
    reply(
        200,
        &format!(
            r#"{{"version":{version},"missed":{missed},"changes":[{}]}}"#,
            rows.join(",")
        ),
    )
}

/// A node that has a table, and the answers to the next questions for changes, in `news`. If there are none, such a
/// question waits. What stands in `instead` takes the place of the next answers, whatever they are to. So many of the
/// next connections as `refusals` says are closed at once.
#[derive(Default)]
pub struct State {
    pub members: Vec<String>,
    pub version: u64,
    pub first: u64,
    pub news: VecDeque<String>,
    pub instead: VecDeque<String>,
    pub refusals: u32,
    /// What is answered at once to each question for changes, if it isn't empty.
    pub odd: String,
    /// How long the server waits before each byte.
    pub slowness: Duration,
    /// The targets that were asked, and how many connections were made.
    pub asked: Vec<String>,
    pub connections: u32,
    /// How many of them have neither side closed.
    pub open: u32,
    links: Vec<TcpStream>,
    is_over: bool,
}

pub struct Fake {
    state: Arc<Mutex<State>>,
    place: SocketAddr,
}

impl Fake {
    pub fn new(names: &[&str]) -> Fake {
        let listener = TcpListener::bind("127.0.0.1:0").unwrap();
        let place = listener.local_addr().unwrap();
        let members = names.iter().map(|it| alive(it)).collect();
        let state = Arc::new(Mutex::new(State {
            members,
            version: 5,
            first: 1,
            ..State::default()
        }));
        let shared = Arc::clone(&state);
        thread::spawn(move || listen(&listener, &shared));
        Fake { state, place }
    }

    /// A fake without members, which answers the next questions so.
    pub fn answering(answers: &[&str]) -> Fake {
        let fake = Fake::new(&[]);
        fake.state().instead = answers.iter().map(|it| (*it).to_string()).collect();
        fake
    }

    pub fn state(&self) -> MutexGuard<'_, State> {
        self.state.lock().unwrap()
    }

    pub fn at(&self) -> String {
        self.place.to_string()
    }

    /// A client of this server, which waits for a short time for changes. It is patient otherwise, since a machine may
    /// be busy.
    pub fn client(&self) -> Client {
        Client::new(self.at())
            .with_wait(ms(2000))
            .with_timeout(ms(30_000))
    }

    pub fn says(&self, answer: String) {
        self.state().news.push_back(answer);
    }

    /// How often a target was asked for.
    pub fn count_of(&self, target: &str) -> usize {
        self.state().asked.iter().filter(|it| *it == target).count()
    }

    /// Closes all connections, as a node that is killed.
    pub fn close_all(&self) {
        for link in self.state().links.drain(..) {
            let _is_closed = link.shutdown(Shutdown::Both);
        }
    }

    /// Takes no connection any more.
    pub fn end(&self) {
        self.state().is_over = true;
        // This wakes the thread that listens.
        drop(TcpStream::connect(self.place));
        self.close_all();
    }
}

impl Drop for Fake {
    fn drop(&mut self) {
        self.end();
    }
}

fn listen(listener: &TcpListener, state: &Arc<Mutex<State>>) {
    for link in listener.incoming() {
        let link = link.unwrap();
        let mut now = state.lock().unwrap();
        if now.is_over {
            return;
        }
        now.connections += 1;
        if now.refusals > 0 {
            now.refusals -= 1;
            continue;
        }
        now.open += 1;
        now.links.push(link.try_clone().unwrap());
        let shared = Arc::clone(state);
        thread::spawn(move || {
            serve(&link, &shared);
            let _is_closed = link.shutdown(Shutdown::Both);
            shared.lock().unwrap().open -= 1;
        });
    }
}

/// Answers what comes on a connection, until it ends.
fn serve(link: &TcpStream, state: &Mutex<State>) {
    let mut reader = BufReader::new(link);
    loop {
        let (mut first, mut line) = (String::new(), String::from(" "));
        if !matches!(reader.read_line(&mut first), Ok(1..)) {
            return;
        }
        while line != "\r\n" {
            line.clear();
            if !matches!(reader.read_line(&mut line), Ok(1..)) {
                return;
            }
        }
        let target = first.split(' ').nth(1).unwrap_or("").to_string();
        let answer = answer_to(&target, link, state);
        let is_last = answer.ends_with(CLOSED);
        let is_sent = answer == SILENT || send(link, answer.trim_end_matches(CLOSED), state);
        if is_last || !is_sent {
            return;
        }
    }
}

fn send(mut link: &TcpStream, answer: &str, state: &Mutex<State>) -> bool {
    let slowness = state.lock().unwrap().slowness;
    if slowness.is_zero() {
        return link.write_all(answer.as_bytes()).is_ok();
    }
    answer.bytes().all(|byte| {
        thread::sleep(slowness);
        link.write_all(&[byte]).is_ok()
    })
}

fn answer_to(target: &str, link: &TcpStream, state: &Mutex<State>) -> String {
    let mut now = state.lock().unwrap();
    now.asked.push(target.into());
    if let Some(answer) = now.instead.pop_front() {
        return answer;
    }
    match target {
        "/v1/config" if now.first > 0 => {
            reply(200, &format!(r#"{{"name":"b","first":{}}}"#, now.first))
        }
        "/v1/config" => reply(404, r#"{"error":"there is nothing at this path"}"#),
        "/v1/members" => {
            let rows: Vec<_> = now.members.iter().map(|it| format!("{{{it}}}")).collect();
            let (version, rows) = (now.version, rows.join(","));
            reply(
                200,
                &format!(r#"{{"version":{version},"moment_ms":50,"name":"b","members":[{rows}]}}"#),
            )
        }
        _ if !now.odd.is_empty() => now.odd.clone(),
        _ => {
            drop(now);
            waited_for(target, link, state)
        }
    }
}

/// The next answer with changes, or one without any when the time of the question is over. It waits as long as the
/// client does.
fn waited_for(target: &str, link: &TcpStream, state: &Mutex<State>) -> String {
    let wait_ms = target
        .rsplit('=')
        .next()
        .and_then(|it| it.parse().ok())
        .unwrap_or(0);
    let end = Instant::now() + Duration::from_millis(wait_ms);
    while Instant::now() < end && !is_closed(link) {
        if let Some(answer) = state.lock().unwrap().news.pop_front() {
            return answer;
        }
        thread::sleep(Duration::from_millis(10));
    }
    changes(state.lock().unwrap().version, &[])
}

/// Whether the other side of a connection has closed it. Only the thread that serves it may look.
fn is_closed(link: &TcpStream) -> bool {
    let is_set = link.set_nonblocking(true).is_ok();
    let got = link.peek(&mut [0]);
    let is_back = link.set_nonblocking(false).is_ok();
    match got {
        Ok(count) => count == 0,
        Err(error) => error.kind() != ErrorKind::WouldBlock || !is_set || !is_back,
    }
}

/// So many milliseconds.
pub const fn ms(count: u64) -> Duration {
    Duration::from_millis(count)
}

/// Waits until something holds. If it doesn't in time, the test fails.
pub fn until(limit: Duration, what: &str, mut holds: impl FnMut() -> bool) {
    let end = Instant::now() + limit;
    while !holds() {
        assert!(Instant::now() < end, "after {limit:?}: {what}");
        thread::sleep(Duration::from_millis(10));
    }
}

/// The kind of an error, as its name.
pub fn kind(error: &Error) -> &'static str {
    match error {
        Error::NoAnswer(_) => "NoAnswer",
        Error::Busy { .. } => "Busy",
        Error::BadAnswer(_) => "BadAnswer",
        Error::BadArgument(_) => "BadArgument",
        _ => "another",
    }
}
