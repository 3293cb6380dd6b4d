//! What a watcher gives, beside a server that answers as real nodes seldom do.

mod fake;

use fake::{
    alive, busy, changes, forgotten, kind, missed, ms, record, reply, until, Fake, CLOSED, LIMIT,
    SILENT,
};
use lg_members::{Change, Client, Error, Member, Watch};
use std::collections::BTreeMap;
use std::thread;
use std::time::Instant;

/// A watcher with its faults, their moments, and a table to which its changes are applied.
struct Follower {
    watch: Watch,
    faults: Vec<(Instant, Error)>,
    table: BTreeMap<String, Member>,
}

impl Follower {
    fn of(client: &Client) -> Follower {
        let watch = client.watch();
        let stopper = watch.stopper();
        // A test in which no change comes fails and doesn't hang.
        thread::spawn(move || {
            thread::sleep(3 * LIMIT);
            stopper.stop();
        });
        Follower {
            watch,
            faults: Vec::new(),
            table: BTreeMap::new(),
        }
    }

    /// A follower that has the table of a fake.
    fn begun(fake: &Fake, client: &Client) -> Follower {
        let mut it = Follower::of(client);
        let taken = it.take();
        assert_eq!(taken.len(), fake.state().members.len());
        assert!(
            taken.iter().all(|row| row.starts_with("table ")),
            "{taken:?}"
        );
        it
    }

    /// The next changes, up to one without `more`: each as a word, a name, a status and a version.
    fn take(&mut self) -> Vec<String> {
        let mut rows = Vec::new();
        loop {
            match self.watch.next().expect("it never ends") {
                Err(fault) => self.faults.push((Instant::now(), fault)),
                Ok(change) => {
                    change.apply(&mut self.table);
                    rows.push(shown(&change));
                    if !change.more {
                        return rows;
                    }
                }
            }
        }
    }

    fn kinds(&self) -> Vec<&'static str> {
        self.faults.iter().map(|it| kind(&it.1)).collect()
    }

    fn statuses(&self) -> String {
        let rows: Vec<_> = self
            .table
            .values()
            .map(|it| format!("{} {}", it.name, it.status))
            .collect();
        rows.join(", ")
    }
}

fn shown(change: &Change) -> String {
    let from = if change.of_table { "table" } else { "change" };
    let status = change
        .member
        .as_ref()
        .map_or("forgotten".into(), |it| it.status.to_string());
    format!("{from} {} {status} {}", change.name, change.version)
}

#[test]
fn the_table_comes_first_and_then_each_change() {
    let fake = Fake::new(&["a", "b"]);
    let mut it = Follower::of(&fake.client());
    assert_eq!(it.take(), ["table a alive 5", "table b alive 5"]);
    let suspect = record("a", "suspect", 0).replace("null", r#""b""#);
    fake.says(changes(
        9,
        &[(7, alive("c")), (8, suspect), (8, record("a", "alive", 1))],
    ));
    assert_eq!(
        it.take(),
        ["change c alive 7", "change a suspect 8", "change a alive 8"]
    );
    assert_eq!(it.table["a"].incarnation, 1);
    fake.says(changes(12, &[(12, forgotten("c"))]));
    assert_eq!(it.take(), ["change c forgotten 12"]);
    assert_eq!(it.statuses(), "a alive, b alive");
    let targets = [
        "/v1/config",
        "/v1/members",
        "/v1/changes?after=5&wait_ms=2000",
        "/v1/changes?after=9&wait_ms=2000",
    ];
    assert_eq!(fake.state().asked, targets);
    assert_eq!(fake.state().connections, 1);
    assert!(it.faults.is_empty());
}

#[test]
fn nothing_changes_for_a_while() {
    let fake = Fake::new(&["a"]);
    let mut it = Follower::begun(&fake, &fake.client().with_wait(ms(100)));
    fake.state().version = 6;
    thread::scope(|scope| {
        scope.spawn(|| {
            thread::sleep(ms(350));
            fake.says(changes(7, &[(7, alive("b"))]));
        });
        assert_eq!(it.take(), ["change b alive 7"]);
    });
    assert!(fake.count_of("/v1/changes?after=6&wait_ms=100") > 0);
    assert!(it.faults.is_empty());
}

#[test]
fn missed_changes_give_the_table_anew() {
    let fake = Fake::new(&["a", "b", "c", "d"]);
    let mut it = Follower::begun(&fake, &fake.client());
    fake.says(missed(
        9000,
        &[(9000, record("b", "failed", 0)), (9000, alive("e"))],
    ));
    let gone = [
        "table a forgotten 9000",
        "table c forgotten 9000",
        "table d forgotten 9000",
    ];
    assert_eq!(
        it.take(),
        [&gone[..], &["table b failed 9000", "table e alive 9000"]].concat()
    );
    assert_eq!(it.statuses(), "b failed, e alive");
    fake.says(changes(9001, &[(9001, alive("a"))]));
    assert_eq!(it.take(), ["change a alive 9001"]);
    assert_eq!(fake.count_of("/v1/members"), 1);
}

/// Also if the node tells nothing by which its lives could be told apart.
#[test]
fn versions_that_go_back_give_the_table_anew() {
    for first in [1, 0] {
        let fake = Fake::new(&["a", "b"]);
        fake.state().version = 50;
        fake.state().first = first;
        let mut it = Follower::begun(&fake, &fake.client());
        fake.state().members.remove(0);
        fake.state().version = 3;
        fake.says(changes(3, &[]));
        assert_eq!(it.take(), ["table a forgotten 3", "table b alive 3"]);
        assert_eq!(it.kinds(), ["NoAnswer"]);
    }
}

/// Also if its version has come further than that of before.
#[test]
fn a_node_that_was_started_again_gives_the_table_anew() {
    let fake = Fake::new(&["a", "b"]);
    let mut it = Follower::begun(&fake, &fake.client());
    fake.state().members.remove(0);
    fake.state().version = 77;
    fake.state().first = 2;
    fake.close_all();
    assert_eq!(it.take(), ["table a forgotten 77", "table b alive 77"]);
    assert_eq!(it.kinds(), ["NoAnswer"]);
}

/// If the node runs on, the changes go on behind the last one.
#[test]
fn a_lost_connection_gives_nothing_anew() {
    let fake = Fake::new(&["a"]);
    let mut it = Follower::begun(&fake, &fake.client());
    fake.says(CLOSED.into());
    fake.says(changes(6, &[(6, alive("b"))]));
    assert_eq!(it.take(), ["change b alive 6"]);
    assert_eq!(
        (fake.count_of("/v1/members"), fake.state().connections),
        (1, 2)
    );
    assert_eq!(it.kinds(), ["NoAnswer"]);
}

/// It is so if nobody takes the changes for a while.
#[test]
fn a_connection_that_was_idle_is_replaced() {
    let fake = Fake::new(&["a"]);
    let mut it = Follower::begun(&fake, &fake.client().with_pace(ms(100), ms(5000), ms(100)));
    fake.close_all();
    thread::sleep(ms(200));
    fake.says(changes(6, &[(6, alive("b"))]));
    assert_eq!(it.take(), ["change b alive 6"]);
    assert_eq!(fake.count_of("/v1/members"), 1);
    assert!(it.faults.is_empty());
}

#[test]
fn each_answer_may_end_its_connection() {
    let fake = Fake::new(&[]);
    let last = |it: &str| it.replacen("\r\n", "\r\nConnection: close\r\n", 1) + CLOSED;
    let table = format!(
        r#"{{"version":5,"moment_ms":1,"name":"b","members":[{{{}}}]}}"#,
        alive("a")
    );
    for version in [0, 6, 7] {
        fake.state()
            .instead
            .push_back(last(&reply(200, r#"{"first":1}"#)));
        let changed = changes(version, &[(version, alive("b"))]);
        fake.state().instead.push_back(last(&if version == 0 {
            reply(200, &table)
        } else {
            changed
        }));
    }
    let mut it = Follower::of(&fake.client());
    assert_eq!(it.take(), ["table a alive 5"]);
    assert_eq!(it.take(), ["change b alive 6"]);
    assert_eq!(it.take(), ["change b alive 7"]);
    assert!(it.faults.is_empty());
}

/// None of the faults changes what it gives.
#[test]
fn it_goes_on_behind_each_fault() {
    let whole = changes(6, &[(6, alive("b"))]);
    let faults = [
        (busy(), "Busy"),
        (format!("{}{CLOSED}", &whole[..whole.len() - 5]), "NoAnswer"),
        (format!("{}{CLOSED}", &whole[..9]), "NoAnswer"),
        (CLOSED.into(), "NoAnswer"),
        ("garbage\r\n\r\n".into(), "BadAnswer"),
        (reply(200, "[]"), "BadAnswer"),
        (reply(200, r#"{"version":6}"#), "BadAnswer"),
        (changes(5, &[(6, alive("b"))]), "BadAnswer"),
        (changes(6, &[]), "BadAnswer"),
        (missed(9, &[]), "BadAnswer"),
        (reply(500, "{}"), "BadAnswer"),
    ];
    for (fault, wanted) in faults {
        let fake = Fake::new(&["a"]);
        let mut it = Follower::begun(&fake, &fake.client());
        fake.says(fault);
        fake.says(whole.clone());
        assert_eq!(it.take(), ["change b alive 6"]);
        assert_eq!(it.kinds(), [wanted]);
    }
}

#[test]
fn faults_before_the_table() {
    let life = reply(200, r#"{"first":1}"#);
    let cut = format!("{}{CLOSED}", &life[..life.len() - 1]);
    let fake = Fake::new(&["a"]);
    fake.state().refusals = 1;
    let answers = [
        CLOSED,
        &life,
        CLOSED,
        &life,
        "garbage\r\n\r\n",
        &reply(200, "{}"),
        &cut,
    ]
    .map(String::from);
    fake.state().instead.extend(answers);
    let mut it = Follower::of(&fake.client().with_pace(ms(1), ms(1), ms(1000)));
    assert_eq!(it.take(), ["table a alive 5"]);
    assert_eq!(
        it.kinds(),
        ["Busy", "Busy", "NoAnswer", "BadAnswer", "NoAnswer"]
    );
    assert!(!fake.state().asked.iter().any(|it| it.contains("changes")));
}

#[test]
fn bytes_behind_an_answer_end_its_connection() {
    let fake = Fake::new(&["a"]);
    let mut it = Follower::begun(&fake, &fake.client());
    for version in [6, 7] {
        fake.says(changes(version, &[(version, alive("b"))]) + "HTTP/1.1 500");
        assert_eq!(it.take(), [format!("change b alive {version}")]);
    }
    assert!(it.faults.is_empty());
}

#[test]
fn it_waits_as_long_as_a_busy_node_says() {
    let fake = Fake::new(&["a"]);
    let mut it = Follower::begun(&fake, &fake.client());
    fake.says(busy());
    fake.says(changes(6, &[(6, alive("b"))]));
    it.take();
    assert!(it.faults[0].0.elapsed() >= ms(950));
}

#[test]
fn the_waits_grow_and_are_bounded() {
    let fake = Fake::new(&["a"]);
    fake.state().refusals = 9;
    let mut it = Follower::of(&fake.client().with_pace(ms(50), ms(200), ms(1000)));
    it.take();
    let least = [50, 100, 200, 200, 200, 200, 200, 200];
    for (pair, least) in it.faults.windows(2).zip(least) {
        let waited = pair[1].0 - pair[0].0;
        assert!((ms(least - 5)..ms(3000)).contains(&waited), "{waited:?}");
    }
}

#[test]
fn the_waits_begin_anew_behind_an_answer() {
    let fake = Fake::new(&["a"]);
    fake.state().refusals = 7;
    let mut it = Follower::of(&fake.client().with_pace(ms(20), ms(5000), ms(1000)));
    it.take();
    fake.says(changes(6, &[(6, alive("b"))]));
    it.take();
    fake.says(CLOSED.into());
    fake.says(changes(7, &[(7, alive("c"))]));
    it.take();
    assert_eq!(it.faults.len(), 8);
    assert!(it.faults[7].0.elapsed() < ms(2000));
}

/// Whatever an odd server answers at once, it isn't asked without a pause.
#[test]
fn answers_without_a_wait_do_not_make_it_spin() {
    let odd = [
        changes(5, &[]),
        changes(4, &[]),
        changes(5, &[(5, alive("a"))]),
        busy(),
        reply(400, "{}"),
        String::from(CLOSED),
    ];
    thread::scope(|scope| {
        for answer in odd {
            scope.spawn(move || {
                let fake = Fake::new(&["a"]);
                fake.state().odd = answer.clone();
                let watch = fake.client().watch();
                let stopper = watch.stopper();
                let taker = thread::spawn(move || watch.count());
                until(LIMIT, "it isn't asked", || fake.state().asked.len() > 2);
                thread::sleep(ms(1000));
                stopper.stop();
                taker.join().unwrap();
                let count = fake.state().asked.len();
                assert!(count < 25, "{answer:?}: it asked {count} times");
            });
        }
    });
}

#[test]
fn a_silent_node_is_asked_again() {
    let fake = Fake::new(&["a"]);
    let mut it = Follower::begun(
        &fake,
        &fake.client().with_wait(ms(100)).with_timeout(ms(1000)),
    );
    let begun = Instant::now();
    fake.says(SILENT.into());
    fake.says(changes(6, &[(6, alive("b"))]));
    assert_eq!(it.take(), ["change b alive 6"]);
    assert!(begun.elapsed() >= ms(1000));
    // A busy machine may be silent too.
    assert!(it.kinds().iter().all(|kind| *kind == "NoAnswer"));
}

#[test]
fn a_long_wait_is_no_silence() {
    let fake = Fake::new(&["a"]);
    let mut it = Follower::begun(
        &fake,
        &fake.client().with_wait(ms(30_000)).with_timeout(ms(1000)),
    );
    let before = it.kinds();
    thread::scope(|scope| {
        scope.spawn(|| {
            thread::sleep(ms(1500));
            fake.says(changes(6, &[(6, alive("b"))]));
        });
        assert_eq!(it.take(), ["change b alive 6"]);
    });
    assert_eq!(it.kinds(), before);
}
