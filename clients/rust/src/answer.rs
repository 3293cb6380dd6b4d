//! What a node says, and how it is read.

use crate::error::{bad, Error};
use crate::json::{read, Json};
use std::collections::BTreeMap;
use std::fmt;
use std::net::IpAddr;

/// What a node takes a member for.
#[derive(Clone, Copy, Debug, PartialEq, Eq, Hash)]
pub enum Status {
    /// It is alive.
    Alive,
    /// Somebody suspects it.
    Suspect,
    /// It has failed.
    Failed,
    /// It has left its group.
    Left,
}

impl fmt::Display for Status {
    fn fmt(&self, f: &mut fmt::Formatter<'_>) -> fmt::Result {
        f.write_str(match self {
            Status::Alive => "alive",
            Status::Suspect => "suspect",
            Status::Failed => "failed",
            Status::Left => "left",
        })
    }
}

/// What a node knows of a member.
#[derive(Clone, Debug, PartialEq, Eq)]
pub struct Member {
    /// Its name.
    pub name: String,
    /// What the node takes it for.
    pub status: Status,
    /// A number that the member raises to object.
    pub incarnation: u64,
    /// Where its own node is reached.
    pub address: IpAddr,
    /// The port of its node.
    pub port: u16,
    /// Who suspects it, if somebody does.
    pub accuser: Option<String>,
}

/// The members that a node knows, itself included.
#[derive(Clone, Debug, PartialEq, Eq)]
pub struct Table {
    /// How many events they are after.
    pub version: u64,
    /// When they were read, in milliseconds from the node's start.
    pub moment_ms: u64,
    /// The node's own name.
    pub name: String,
    /// The members, in the order of names.
    pub members: Vec<Member>,
}

/// A node's health.
#[derive(Clone, Debug, PartialEq, Eq)]
pub struct Health {
    /// The node's name.
    pub name: String,
    /// Its health score, 0 at best.
    pub score: u64,
    /// Its incarnation.
    pub incarnation: u64,
    /// How many members are neither failed nor left.
    pub live: u64,
    /// How many there are in all.
    pub known: u64,
    /// Whether it was ousted. Then it ends soon.
    pub ousted: bool,
    /// How long it runs.
    pub uptime_ms: u64,
    /// For how long its clock stood still.
    pub stood_still_ms: u64,
}

/// A change of a member: its new record, or that it was forgotten.
#[derive(Clone, Debug, PartialEq, Eq)]
pub struct Change {
    /// How many events there were with this one.
    pub version: u64,
    /// When it came, in milliseconds from the node's start.
    pub moment_ms: u64,
    /// The name of the member.
    pub name: String,
    /// The member as it is now. None if it was forgotten: the node dropped it, after it had failed or left.
    pub member: Option<Member>,
    /// Whether it is a row of a whole table, which is given at the start and when a watcher has to begin anew.
    pub of_table: bool,
    /// Whether further changes of the same answer follow at once. Behind a change without this a map to which all
    /// changes were applied is the table of the node.
    pub more: bool,
}

impl Change {
    /// Brings a map of members by their names up to date.
    pub fn apply(&self, table: &mut BTreeMap<String, Member>) {
        match &self.member {
            Some(member) => table.insert(self.name.clone(), member.clone()),
            None => table.remove(&self.name),
        };
    }
}

/// An answer with changes.
pub(crate) struct News {
    pub(crate) version: u64,
    pub(crate) missed: bool,
    pub(crate) changes: Vec<Change>,
}

/// The object of JSON that a body is.
pub(crate) fn object_in(body: &[u8]) -> Result<Json, Error> {
    match read(body) {
        Ok(value @ Json::Object(_)) => Ok(value),
        Ok(_) => bad("the body is no object of JSON"),
        Err(words) => bad(format!("the body is no JSON: {words}")),
    }
}

/// Whether a text is a name: 1 to 32 bytes of `A-Z a-z 0-9 . _ -`.
pub(crate) fn is_name(text: &str) -> bool {
    let is_allowed = |it: u8| it.is_ascii_alphanumeric() || matches!(it, b'.' | b'_' | b'-');
    (1..=32).contains(&text.len()) && text.bytes().all(is_allowed)
}

/// The fault that a field isn't what it has to be.
fn wrong<T>(object: &Json, key: &str, what: &str) -> Result<T, Error> {
    let there: String = format!("{:?}", object.get(key)).chars().take(80).collect();
    bad(format!("`{key}` is no {what}: {there}"))
}

pub(crate) fn number_at(object: &Json, key: &str) -> Result<u64, Error> {
    match object.get(key) {
        Some(Json::Number(number)) => Ok(*number),
        _ => wrong(object, key, "number"),
    }
}

pub(crate) fn text_at<'a>(object: &'a Json, key: &str) -> Result<&'a str, Error> {
    match object.get(key) {
        Some(Json::Text(text)) => Ok(text),
        _ => wrong(object, key, "text"),
    }
}

fn truth_at(object: &Json, key: &str) -> Result<bool, Error> {
    match object.get(key) {
        Some(Json::Truth(truth)) => Ok(*truth),
        _ => wrong(object, key, "truth value"),
    }
}

fn name_at(object: &Json, key: &str) -> Result<String, Error> {
    match text_at(object, key)? {
        name if is_name(name) => Ok(name.into()),
        _ => wrong(object, key, "name"),
    }
}

fn rows_at<'a>(object: &'a Json, key: &str) -> Result<&'a [Json], Error> {
    match object.get(key) {
        Some(Json::List(rows)) => Ok(rows),
        _ => wrong(object, key, "list"),
    }
}

fn status_at(object: &Json) -> Result<Status, Error> {
    match text_at(object, "status")? {
        "alive" => Ok(Status::Alive),
        "suspect" => Ok(Status::Suspect),
        "failed" => Ok(Status::Failed),
        "left" => Ok(Status::Left),
        _ => wrong(object, "status", "status"),
    }
}

pub(crate) fn member_in(object: &Json) -> Result<Member, Error> {
    Ok(Member {
        name: name_at(object, "name")?,
        status: status_at(object)?,
        incarnation: number_at(object, "incarnation")?,
        address: match text_at(object, "address")?.parse() {
            Ok(address) => address,
            Err(_) => return wrong(object, "address", "address"),
        },
        port: match u16::try_from(number_at(object, "port")?) {
            Ok(port) => port,
            Err(_) => return wrong(object, "port", "port"),
        },
        accuser: match object.get("accuser") {
            Some(Json::Null) => None,
            _ => Some(name_at(object, "accuser")?),
        },
    })
}

pub(crate) fn table_in(object: &Json) -> Result<Table, Error> {
    Ok(Table {
        version: number_at(object, "version")?,
        moment_ms: number_at(object, "moment_ms")?,
        name: name_at(object, "name")?,
        members: rows_at(object, "members")?
            .iter()
            .map(member_in)
            .collect::<Result<_, _>>()?,
    })
}

pub(crate) fn health_in(object: &Json) -> Result<Health, Error> {
    Ok(Health {
        name: name_at(object, "name")?,
        score: number_at(object, "score")?,
        incarnation: number_at(object, "incarnation")?,
        live: number_at(object, "live")?,
        known: number_at(object, "known")?,
        ousted: truth_at(object, "ousted")?,
        uptime_ms: number_at(object, "uptime_ms")?,
        stood_still_ms: number_at(object, "stood_still_ms")?,
    })
}

/// A change. If a member was forgotten, only its name is read.
fn change_in(object: &Json) -> Result<Change, Error> {
    let member = match text_at(object, "status")? {
        "forgotten" => None,
        _ => Some(member_in(object)?),
    };
    Ok(Change {
        version: number_at(object, "version")?,
        moment_ms: number_at(object, "moment_ms")?,
        name: name_at(object, "name")?,
        member,
        of_table: false,
        more: false,
    })
}

pub(crate) fn news_in(object: &Json) -> Result<News, Error> {
    Ok(News {
        version: number_at(object, "version")?,
        missed: truth_at(object, "missed")?,
        changes: rows_at(object, "changes")?
            .iter()
            .map(change_in)
            .collect::<Result<_, _>>()?,
    })
}
