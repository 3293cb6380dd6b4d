//! How a watcher ends, and that nothing is left of it.

mod fake;

use fake::{ms, until, Fake, LIMIT, SILENT};
use lg_members::{Client, MAX_WAIT};
use std::sync::mpsc;
use std::thread;
use std::time::Instant;

/// Stops a watcher from another thread, once something holds. It ends at once, and its connection is closed, though it
/// wasn't dropped.
fn ends_once(fake: &Fake, holds: impl FnMut() -> bool) {
    let client = fake.client().with_wait(MAX_WAIT).with_timeout(MAX_WAIT);
    let mut watch = client.with_pace(MAX_WAIT, MAX_WAIT, ms(3000)).watch();
    let stopper = watch.stopper();
    let (send, receive) = mpsc::channel();
    thread::spawn(move || {
        let count = watch.by_ref().count();
        send.send((watch, count)).unwrap();
    });
    until(LIMIT, "it doesn't come so far", holds);
    let begun = Instant::now();
    stopper.stop();
    let (mut watch, _) = receive.recv_timeout(LIMIT).expect("it doesn't end");
    assert!(begun.elapsed() < ms(5000));
    assert!(watch.next().is_none());
    until(LIMIT, "connections are open", || fake.state().open == 0);
}

#[test]
fn it_ends_while_it_waits_for_a_change() {
    let fake = Fake::new(&["a"]);
    ends_once(&fake, || fake.state().asked.len() == 3);
}

#[test]
fn it_ends_while_the_node_is_silent() {
    let fake = Fake::answering(&[SILENT]);
    ends_once(&fake, || fake.state().asked.len() == 1);
}

#[test]
fn it_ends_between_two_tries() {
    let fake = Fake::new(&[]);
    fake.state().refusals = 1;
    ends_once(&fake, || fake.state().refusals == 0);
}

#[test]
fn it_ends_before_it_began() {
    let fake = Fake::new(&["a"]);
    let mut watch = fake.client().watch();
    watch.stopper().stop();
    assert!(watch.next().is_none());
    assert_eq!(fake.state().connections, 0);
}

/// Changes that weren't taken yet aren't given once it was stopped.
#[test]
fn it_ends_between_two_changes() {
    let fake = Fake::new(&["a", "b"]);
    let mut watch = fake.client().watch();
    assert!(matches!(watch.next(), Some(Ok(change)) if change.more));
    watch.stopper().stop();
    assert!(watch.next().is_none());
    until(LIMIT, "connections are open", || fake.state().open == 0);
}

/// A stopper that outlives its watcher keeps nothing open.
#[test]
fn nothing_is_left_of_those_that_were_dropped() {
    let fake = Fake::new(&["a"]);
    let stoppers: Vec<_> = (0..20)
        .map(|_| {
            let mut watch = fake.client().watch();
            assert!(matches!(watch.next(), Some(Ok(_))));
            watch.stopper()
        })
        .collect();
    until(LIMIT, "connections are open", || fake.state().open == 0);
    for it in stoppers {
        it.stop();
    }
}

#[test]
fn it_may_go_to_another_thread() {
    fn is_sent<T: Send + 'static>(_: &T) {}
    let watch = Client::default().watch();
    is_sent(&watch);
    is_sent(&watch.stopper());
}
