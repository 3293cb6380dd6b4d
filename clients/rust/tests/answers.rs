//! What single questions give, beside a server that answers in all ways.

mod fake;

use fake::{alive, busy, kind, record, reply, reply_with, Fake, CLOSED, SILENT};
use lg_members::{Client, Error, Health, Member, Status, Table};
use std::time::{Duration, Instant};

const HEALTH: &str = r#"{"name":"b","score":0,"incarnation":3,"live":2,"known":3,"ousted":false,"uptime_ms":5120,"stood_still_ms":7}"#;
/// Fields that aren't known. Some differ from known ones in their case alone.
const MORE: &str = r#""Name":1,"VERSION" : "x","new":[{"name":[null,-1.5e3,"\"\\\u00e9"]},{}], "#;

/// The body of a table with three members, with further fields in each object.
fn table(more: &str) -> String {
    let suspect = format!(
        r#""accuser":"{}","port":7101 ,"address":"127.0.0.1","incarnation":18446744073709551615,"status":"suspect","name":"b.-_9""#,
        "A".repeat(32)
    );
    let third = alive("c")
        .replace("127.0.0.1", "2001:db8::1")
        .replace("7101", "0");
    let rows: Vec<_> = [alive("a"), suspect, third]
        .iter()
        .map(|it| format!("{{{more}{it}}}"))
        .collect();
    format!(
        r#"{{{more}"members":[{}],"name":"b","moment_ms":5120,"version":41}}"#,
        rows.join(" ,\n")
    )
}

/// The kind of the fault of a question for members, if these come for it.
fn fault_of(answer: &str) -> &'static str {
    match Fake::answering(&[answer]).client().members() {
        Ok(members) => panic!("{answer:.80}: got {members:?}"),
        Err(fault) => kind(&fault),
    }
}

fn member(name: &str) -> Member {
    Member {
        name: name.into(),
        status: Status::Alive,
        incarnation: 0,
        address: [127, 0, 0, 1].into(),
        port: 7101,
        accuser: None,
    }
}

#[test]
fn members_are_what_the_node_says() {
    let suspect = Member {
        status: Status::Suspect,
        incarnation: u64::MAX,
        accuser: Some("A".repeat(32)),
        ..member("b.-_9")
    };
    let third = Member {
        address: "2001:db8::1".parse().unwrap(),
        port: 0,
        ..member("c")
    };
    let members = vec![member("a"), suspect, third];
    let wanted = Table {
        version: 41,
        moment_ms: 5120,
        name: "b".into(),
        members,
    };
    for more in ["", MORE] {
        let fake = Fake::answering(&[&reply(200, &table(more)), &reply(200, &table(more))]);
        assert_eq!(fake.client().table(), Ok(wanted.clone()));
        assert_eq!(fake.client().members(), Ok(wanted.members.clone()));
    }
}

#[test]
fn one_member_is_asked_for() {
    let known = reply(200, &format!("{{{MORE}{},\"version\":3}}", alive("a")));
    let fake = Fake::answering(&[
        &known,
        &reply(404, r#"{"error":"no member has this name"}"#),
        &reply(404, "<html>"),
    ]);
    assert_eq!(fake.client().member("a"), Ok(Some(member("a"))));
    assert_eq!(fake.client().member(".."), Ok(None));
    assert_eq!(kind(&fake.client().member("a").unwrap_err()), "BadAnswer");
    assert_eq!(
        fake.state().asked,
        ["/v1/members/a", "/v1/members/..", "/v1/members/a"]
    );
    for name in ["", "a/b", "a?b", "é", "a\n", &"a".repeat(33)] {
        assert_eq!(
            kind(&fake.client().member(name).unwrap_err()),
            "BadArgument"
        );
    }
}

#[test]
fn health_is_told_of_an_ousted_node_too() {
    for ousted in [false, true] {
        let body = HEALTH
            .replace("false", &ousted.to_string())
            .replace('{', &format!("{{{MORE}"));
        let fake = Fake::answering(&[&reply(if ousted { 503 } else { 200 }, &body)]);
        let wanted = Health {
            name: "b".into(),
            score: 0,
            incarnation: 3,
            live: 2,
            known: 3,
            ousted,
            uptime_ms: 5120,
            stood_still_ms: 7,
        };
        assert_eq!(fake.client().health(), Ok(wanted));
    }
}

#[test]
fn a_busy_node_says_when_to_ask_again() {
    let fake = Fake::answering(&[&busy(), &busy(), CLOSED]);
    for (fault, seconds) in [
        (fake.client().members().unwrap_err(), 1),
        (fake.client().health().unwrap_err(), 1),
        (fake.client().members().unwrap_err(), 0),
    ] {
        match fault {
            Error::Busy { retry_after, .. } => assert_eq!(retry_after.as_secs(), seconds),
            other => panic!("got {other:?}"),
        }
    }
    fake.state().refusals = 1;
    assert_eq!(kind(&fake.client().members().unwrap_err()), "Busy");
    assert_eq!(
        fault_of(&reply_with(
            503,
            "Retry-After: Wed, 21 Oct 2026 07:28:00 GMT\r\n",
            "{}"
        )),
        "BadAnswer"
    );
}

#[test]
fn nobody_listens() {
    let fake = Fake::new(&["a"]);
    fake.end();
    fake::until(
        fake::LIMIT,
        "somebody listens",
        || matches!(fake.client().members(), Err(Error::NoAnswer(words)) if words.contains("nobody takes")),
    );
}

/// The answer is cut off behind each of its bytes.
#[test]
fn an_answer_is_cut_off() {
    let whole = reply(
        200,
        &format!(
            r#"{{"version":1,"moment_ms":2,"name":"b","members":[{{{}}}]}}"#,
            alive("a")
        ),
    );
    let fake = Fake::new(&[]);
    for size in 1..whole.len() {
        fake.state()
            .instead
            .push_back(format!("{}{CLOSED}", &whole[..size]));
        assert_eq!(
            kind(&fake.client().members().unwrap_err()),
            "NoAnswer",
            "{}",
            &whole[..size]
        );
    }
}

/// The time is that of the whole question, and not of each read.
#[test]
fn a_slow_node_is_given_up() {
    let whole = reply(200, &table(""));
    for answer in [SILENT, &whole[..9], &whole[..whole.len() - 1], &whole] {
        let fake = Fake::answering(&[answer]);
        if answer == whole {
            fake.state().slowness = Duration::from_millis(50);
        }
        let begun = Instant::now();
        let fault = fake
            .client()
            .with_timeout(Duration::from_millis(300))
            .members()
            .unwrap_err();
        assert_eq!(kind(&fault), "NoAnswer");
        assert!((Duration::from_millis(250)..Duration::from_secs(10)).contains(&begun.elapsed()));
    }
}

#[test]
fn an_answer_comes_byte_after_byte() {
    let fake = Fake::new(&["a"]);
    fake.state().slowness = Duration::from_millis(1);
    assert_eq!(fake.client().members(), Ok(vec![member("a")]));
}

#[test]
fn garbage_is_no_answer() {
    let endless = format!("HTTP/1.1 200 OK\r\n\r\n{}{CLOSED}", "[".repeat(1 << 21));
    for answer in [
        format!("\x16\x03\x01{}", "\r\n".repeat(90)),
        "220 ftp\r\n\r\n".into(),
        "HTTP/2 200\r\n\r\n".into(),
        "HTTP/1.1 2000\r\n\r\n".into(),
        "HTTP/1.1 +20\r\n\r\n".into(),
        endless,
        "a".repeat(1 << 21),
        "HTTP/1.1 200 OK\r\nContent-Length: -1\r\n\r\n".into(),
        "HTTP/1.1 200 OK\r\nContent-Length: +1\r\n\r\n".into(),
        "HTTP/1.1 200 OK\r\nContent-Length: 1000000000000000\r\n\r\n".into(),
        "HTTP/1.1 200 OK\r\nContent-Length: 99999999999999999999999\r\n\r\n".into(),
        "HTTP/1.1 200 OK\r\nTransfer-Encoding: chunked\r\n\r\nzz\r\n".into(),
        reply(200, ""),
        reply(200, "[]"),
        reply(200, "null"),
        reply(200, &"[".repeat(100_000)),
        reply(404, &table("")),
        reply(503, &table("")),
        reply(421, r#"{"error":"no"}"#),
    ] {
        assert_eq!(fault_of(&answer), "BadAnswer", "{answer:.60}");
    }
}

#[test]
fn each_field_has_to_be_there_and_of_its_kind() {
    let row = alive("a");
    let mut bad = vec![String::from("1"), String::from("null"), String::from("[]")];
    for field in row.split(',') {
        let key = field.split(':').next().unwrap();
        bad.push(format!("{{{}}}", row.replace(field, "\"x\":1")));
        for value in ["1.5", "true", "[]"] {
            bad.push(format!(
                "{{{}}}",
                row.replace(field, &format!("{key}:{value}"))
            ));
        }
    }
    for (key, value) in [
        ("port", "65536"),
        ("incarnation", "-1"),
        ("incarnation", "18446744073709551616"),
        ("name", r#""""#),
        ("name", r#""a b""#),
        ("name", r#""a\n""#),
        ("name", "null"),
        ("address", r#""""#),
        ("address", r#""localhost""#),
        ("address", r#""[::1]""#),
        ("address", r#""1.2.3""#),
        ("address", r#""::1%lo""#),
        ("status", r#""forgotten""#),
        ("status", r#""new""#),
    ] {
        bad.push(format!("{{{row},\"{key}\":{value}}}"));
    }
    let with =
        |members: &str| format!(r#"{{"version":1,"moment_ms":2,"name":"b","members":{members}}}"#);
    let mut tables: Vec<_> = bad.iter().map(|it| with(&format!("[{it}]"))).collect();
    tables.extend(["{}", "null"].map(with));
    tables.extend(
        ["version", "moment_ms", "name", "members"].map(|key| with("[]").replace(key, "x")),
    );
    for body in tables {
        assert_eq!(fault_of(&reply(200, &body)), "BadAnswer", "{body}");
    }
}

/// Bodies that come in chunks, or that end with the connection: no node sends such, and what stands before one may.
#[test]
fn bodies_that_end_otherwise() {
    let body = table("");
    let parts = [&body[..1], &body[1..99], &body[99..]]
        .map(|it| format!("{:x};a=b\r\n{it}\r\n", it.len()))
        .concat();
    let chunks = format!("HTTP/1.1 200\r\ntransfer-encoding: chunked\r\n\r\n{parts}");
    let fake = Fake::answering(&[
        &format!("{chunks}0\r\nA: b\r\n\r\n"),
        &format!("HTTP/1.0 200 OK\r\n\r\n{body}{CLOSED}"),
        &format!("{chunks}{CLOSED}"),
    ]);
    for _ in 0..2 {
        assert_eq!(fake.client().members().unwrap().len(), 3);
    }
    assert_eq!(kind(&fake.client().members().unwrap_err()), "NoAnswer");
}

#[test]
fn texts_that_are_no_address() {
    for at in [
        "",
        "127.0.0.1",
        "127.0.0.1:0",
        "127.0.0.1:65536",
        "127.0.0.1:+1",
        "::1:8946",
        "[::1]",
        "a b:1",
        "a:1\r\nX: y",
        "http://a:1",
        ":1",
        "[]:1",
        "[a",
        "[g]:1",
    ] {
        assert_eq!(
            kind(&Client::new(at).members().unwrap_err()),
            "BadArgument",
            "{at}"
        );
        let first = Client::new(at).watch().next();
        assert_eq!(kind(&first.unwrap().unwrap_err()), "BadArgument", "{at}");
    }
}

/// The member as a text: what a status is called.
#[test]
fn statuses_have_their_words() {
    let words = ["alive", "suspect", "failed", "left"];
    for (word, status) in
        words
            .iter()
            .zip([Status::Alive, Status::Suspect, Status::Failed, Status::Left])
    {
        assert_eq!(&status.to_string(), word);
        let row = record("a", word, 1);
        let body = format!(r#"{{"version":1,"moment_ms":2,"name":"b","members":[{{{row}}}]}}"#);
        let members = Fake::answering(&[&reply(200, &body)])
            .client()
            .members()
            .unwrap();
        assert_eq!(members[0].status, status);
    }
}
