//! A connection to a node, and HTTP/1.1 on it (RFC 9112), as far as a client needs it.

use crate::answer::object_in;
use crate::error::{bad, late, Error};
use crate::json::Json;
use std::io::{self, Read, Write};
use std::net::{TcpStream, ToSocketAddrs};
use std::sync::Arc;
use std::time::{Duration, Instant};

/// The longest answer that is read, in bytes, its head included.
const MAX_ANSWER: usize = 1 << 20;

/// How long is left until a deadline.
fn left(deadline: Instant) -> Result<Duration, Error> {
    match deadline.checked_duration_since(Instant::now()) {
        Some(left) if !left.is_zero() => Ok(left),
        _ => Err(late()),
    }
}

/// The host and the port of a text `ADDR:PORT`, with an IPv6 address in brackets.
pub(crate) fn place_of(at: &str) -> Result<(&str, u16), Error> {
    let parsed = at.rsplit_once(':').and_then(|(host, port)| {
        let is_digits = (1..=5).contains(&port.len()) && port.bytes().all(|it| it.is_ascii_digit());
        let port = port.parse().ok().filter(|port| is_digits && *port > 0)?;
        Some((bare_host(host)?, port))
    });
    parsed.ok_or_else(|| {
        Error::BadArgument(format!(
            "{at:?} isn't ADDR:PORT, with an IPv6 address in brackets"
        ))
    })
}

/// A host without the brackets of an IPv6 address. None if it is neither an address nor the name of a host.
fn bare_host(host: &str) -> Option<&str> {
    let inner = host.strip_prefix('[').and_then(|it| it.strip_suffix(']'));
    let is_right = |it: u8| match inner {
        Some(_) => it.is_ascii_hexdigit() || matches!(it, b':' | b'.'),
        None => it.is_ascii_alphanumeric() || matches!(it, b'.' | b'_' | b'-'),
    };
    Some(inner.unwrap_or(host)).filter(|it| !it.is_empty() && it.bytes().all(is_right))
}

/// A code, the fields by their names in small letters, and a body.
struct Answer {
    code: u16,
    fields: Vec<(String, String)>,
    body: Vec<u8>,
}

/// The value of the last field of a name.
fn field<'a>(fields: &'a [(String, String)], name: &str) -> Option<&'a str> {
    fields
        .iter()
        .rev()
        .find(|it| it.0 == name)
        .map(|it| it.1.as_str())
}

/// A connection to a node, on which one question goes behind the other. Whatever fails closes it, since what still
/// comes then would be taken for the answer to the next question.
pub(crate) struct Connection {
    at: String,
    link: Arc<TcpStream>,
    received: Vec<u8>,
    /// How many bytes of the answer may still come.
    room: usize,
    has_answered: bool,
    is_open: bool,
    used_at: Instant,
}

impl Connection {
    pub(crate) fn open(at: &str, deadline: Instant) -> Result<Connection, Error> {
        let fault = |error: io::Error| {
            Error::NoAnswer(format!("nobody takes the connection at {at}: {error}"))
        };
        let mut last = Error::NoAnswer(format!("{at} has no address"));
        for address in place_of(at)?.to_socket_addrs().map_err(fault)? {
            match TcpStream::connect_timeout(&address, left(deadline)?) {
                Ok(link) => {
                    return Ok(Connection {
                        at: at.into(),
                        link: Arc::new(link),
                        received: Vec::new(),
                        room: MAX_ANSWER,
                        has_answered: false,
                        is_open: true,
                        used_at: Instant::now(),
                    })
                }
                Err(error) => last = fault(error),
            }
        }
        Err(last)
    }

    /// Whether another question can be asked on it: it is open, and wasn't idle for so long.
    pub(crate) fn is_usable(&self, idle: Duration) -> bool {
        self.is_open && self.used_at.elapsed() <= idle
    }

    /// Whether it is open.
    pub(crate) fn is_open(&self) -> bool {
        self.is_open
    }

    /// The socket, by which another thread may end a question.
    pub(crate) fn link(&self) -> Arc<TcpStream> {
        Arc::clone(&self.link)
    }

    /// The code and the JSON of the answer to a GET. Its code has to be one of these.
    pub(crate) fn ask(
        &mut self,
        target: &str,
        deadline: Instant,
        codes: &[u16],
    ) -> Result<(u16, Json), Error> {
        // It stays closed unless the whole answer came, and nothing behind it.
        self.is_open = false;
        let answer = self.exchange(target, deadline)?;
        let ends = field(&answer.fields, "connection")
            .map_or(false, |it| it.to_ascii_lowercase().contains("close"));
        let value = value_of(&answer, codes)?;
        self.is_open = !ends && self.received.is_empty();
        self.has_answered = true;
        self.used_at = Instant::now();
        Ok((answer.code, value))
    }

    fn exchange(&mut self, target: &str, deadline: Instant) -> Result<Answer, Error> {
        self.room = MAX_ANSWER;
        let request = format!(
            "GET {target} HTTP/1.1\r\nHost: {}\r\nAccept: application/json\r\n\r\n",
            self.at
        );
        let timed = self.link.set_write_timeout(Some(left(deadline)?));
        timed
            .and_then(|()| (&*self.link).write_all(request.as_bytes()))
            .map_err(|it| self.failed(&it))?;
        let head = String::from_utf8_lossy(&self.until(b"\r\n\r\n", deadline)?).into_owned();
        let mut lines = head.split("\r\n");
        let first = lines.next().unwrap_or("");
        let code = match code_in(first) {
            Some(code) => code,
            None => {
                return bad(format!(
                    "this is no answer of HTTP/1.1: {:?}",
                    shortened(first)
                ))
            }
        };
        let parts = lines.map(|line| line.split_once(':').unwrap_or((line, "")));
        let mut fields: Vec<_> = parts
            .map(|it| (it.0.to_ascii_lowercase(), it.1.trim().to_string()))
            .collect();
        let body = self.body(&fields, deadline)?;
        let ends_with_it = field(&fields, "transfer-encoding")
            .or_else(|| field(&fields, "content-length"))
            .is_none();
        if first.starts_with("HTTP/1.0") || ends_with_it {
            fields.push(("connection".into(), "close".into()));
        }
        Ok(Answer { code, fields, body })
    }

    fn body(&mut self, fields: &[(String, String)], deadline: Instant) -> Result<Vec<u8>, Error> {
        if field(fields, "transfer-encoding").is_some() {
            return self.chunks(deadline);
        }
        match field(fields, "content-length") {
            None => self.rest(deadline),
            Some(length) => match length.parse() {
                Ok(count) if length.bytes().all(|it| it.is_ascii_digit()) => {
                    self.take(count, deadline)
                }
                _ => bad(format!("this is no length: {:?}", shortened(length))),
            },
        }
    }

    /// A body that comes in chunks (RFC 9112, section 7.1). A node sends none, but what stands before it may.
    fn chunks(&mut self, deadline: Instant) -> Result<Vec<u8>, Error> {
        let mut body = Vec::new();
        loop {
            let line = String::from_utf8_lossy(&self.until(b"\r\n", deadline)?).into_owned();
            let digits = line.split(';').next().unwrap_or("").trim();
            let is_hex =
                (1..=8).contains(&digits.len()) && digits.bytes().all(|it| it.is_ascii_hexdigit());
            match usize::from_str_radix(digits, 16) {
                Ok(0) if is_hex => break,
                Ok(count) if is_hex => body.append(&mut self.take(count, deadline)?),
                _ => return bad("the size of a chunk is missing"),
            }
            if self.take(2, deadline)? != b"\r\n" {
                return bad("a chunk doesn't end where it should");
            }
        }
        while !self.until(b"\r\n", deadline)?.is_empty() {}
        Ok(body)
    }

    /// What it means that the connection failed while an answer was due.
    fn failed(&self, error: &io::Error) -> Error {
        match error.kind() {
            io::ErrorKind::WouldBlock | io::ErrorKind::TimedOut => late(),
            _ => self.ended(&error.to_string()),
        }
    }

    /// What it means that the connection ended while an answer was due.
    fn ended(&self, words: &str) -> Error {
        if self.room < MAX_ANSWER || self.has_answered {
            return Error::NoAnswer(format!(
                "the connection ended before the answer was whole: {words}"
            ));
        }
        let words = format!("the connection was closed before a byte came: {words}");
        Error::Busy {
            words,
            retry_after: Duration::ZERO,
        }
    }

    /// Receives some more bytes. Whether there were any.
    fn more(&mut self, deadline: Instant) -> Result<bool, Error> {
        let mut part = [0; 16 * 1024];
        let timed = self.link.set_read_timeout(Some(left(deadline)?));
        let count = match timed.and_then(|()| (&*self.link).read(&mut part)) {
            Ok(count) => count,
            Err(error) if error.kind() == io::ErrorKind::Interrupted => return Ok(true),
            Err(error) => return Err(self.failed(&error)),
        };
        self.received.extend_from_slice(&part[..count]);
        match self.room.checked_sub(count) {
            Some(room) => self.room = room,
            None => return bad(format!("the answer has more than {MAX_ANSWER} bytes")),
        }
        Ok(count > 0)
    }

    /// What stands before the next mark, which is taken away too.
    fn until(&mut self, mark: &[u8], deadline: Instant) -> Result<Vec<u8>, Error> {
        let mut from = 0;
        loop {
            if let Some(found) = self.received[from..]
                .windows(mark.len())
                .position(|it| it == mark)
            {
                let rest = self.received.split_off(from + found + mark.len());
                let mut taken = std::mem::replace(&mut self.received, rest);
                taken.truncate(from + found);
                return Ok(taken);
            }
            from = (self.received.len() + 1).saturating_sub(mark.len());
            if !self.more(deadline)? {
                return Err(self.ended("it was closed"));
            }
        }
    }

    /// So many of the next bytes.
    fn take(&mut self, count: usize, deadline: Instant) -> Result<Vec<u8>, Error> {
        if count > MAX_ANSWER {
            return bad(format!("the answer has more than {MAX_ANSWER} bytes"));
        }
        while self.received.len() < count {
            if !self.more(deadline)? {
                return Err(self.ended("it was closed"));
            }
        }
        let rest = self.received.split_off(count);
        Ok(std::mem::replace(&mut self.received, rest))
    }

    /// All that comes until the connection ends.
    fn rest(&mut self, deadline: Instant) -> Result<Vec<u8>, Error> {
        while self.more(deadline)? {}
        Ok(std::mem::take(&mut self.received))
    }
}

/// The beginning of a text that may be long.
fn shortened(text: &str) -> String {
    text.chars().take(80).collect()
}

/// The code of the first line of an answer.
fn code_in(first: &str) -> Option<u16> {
    let rest = first
        .strip_prefix("HTTP/1.1 ")
        .or_else(|| first.strip_prefix("HTTP/1.0 "))?;
    let code = rest.split(' ').next()?;
    let is_code = code.len() == 3 && code.bytes().all(|it| it.is_ascii_digit());
    code.parse().ok().filter(|_| is_code)
}

/// The JSON of an answer. Its code has to be one of these.
fn value_of(answer: &Answer, codes: &[u16]) -> Result<Json, Error> {
    if let (503, Some(seconds)) = (answer.code, field(&answer.fields, "retry-after")) {
        let is_digits =
            (1..=16).contains(&seconds.len()) && seconds.bytes().all(|it| it.is_ascii_digit());
        return match seconds.parse() {
            Ok(seconds) if is_digits => Err(Error::Busy {
                words: "it has too many clients".into(),
                retry_after: Duration::from_secs(seconds),
            }),
            _ => bad("Retry-After is no number of seconds"),
        };
    }
    if codes.contains(&answer.code) {
        return object_in(&answer.body);
    }
    bad(format!(
        "the answer has the code {}: {:?}",
        answer.code,
        shortened(&String::from_utf8_lossy(&answer.body))
    ))
}
