//! What a watcher has applied beside what `/v1/members` says, while real nodes of the program that the variable LG
//! names are killed and started again.

mod fake;

use fake::until;
use lg_members::{Change, Client, Member, Status, Stopper};
use std::any::Any;
use std::collections::hash_map::RandomState;
use std::collections::BTreeMap;
use std::hash::{BuildHasher, Hasher};
use std::net::{TcpListener, UdpSocket};
use std::process::{Child, Command, Stdio};
use std::sync::{Arc, Mutex};
use std::thread::{self, JoinHandle};
use std::time::{Duration, Instant};

/// How long a test waits for what nodes come to: much longer than they take, for a machine that is busy.
const PATIENCE: Duration = Duration::from_secs(60);

type Known = BTreeMap<String, Member>;

/// What holds a port until the end of a test: a socket of the other kind with its number, so that others who look for a
/// free port so leave it alone.
type Holder = Box<dyn Any>;

/// A free port of UDP or TCP below those that the machine hands out, and what holds it.
fn free_place(is_udp: bool) -> (String, Holder) {
    loop {
        // A hasher of the standard library has other keys each time.
        let number = RandomState::new().build_hasher().finish();
        let port = if is_udp {
            20_000 + number % 12_000
        } else {
            12_000 + number % 4_000
        };
        let place = format!("127.0.0.1:{port}");
        match (UdpSocket::bind(&place), TcpListener::bind(&place)) {
            (Ok(_), Ok(stream)) if is_udp => return (place, Box::new(stream)),
            (Ok(packets), Ok(_)) => return (place, Box::new(packets)),
            _ => {}
        }
    }
}

/// A node that may be started, killed, and started again under its name and at its places. It ends with this process,
/// since its input ends then.
struct Node {
    program: String,
    name: &'static str,
    options: &'static [&'static str],
    place: String,
    at: String,
    _holders: [Holder; 2],
    process: Option<Child>,
}

impl Node {
    /// A node that doesn't run yet. None if the variable doesn't name the program.
    fn new(name: &'static str, options: &'static [&'static str]) -> Option<Node> {
        let named = std::env::var("LG").ok().filter(|it| !it.is_empty());
        if named.is_none() {
            eprintln!("this test looks at nothing, since the variable LG doesn't name the program");
        }
        let program = named?;
        let (place, first) = free_place(true);
        let (at, second) = free_place(false);
        Some(Node {
            program,
            name,
            options,
            place,
            at,
            _holders: [first, second],
            process: None,
        })
    }

    /// Starts it. It asks these nodes for their tables.
    fn start(&mut self, seeds: &[&Node]) {
        let port = self.place.rsplit(':').next().unwrap();
        let mut command = Command::new(&self.program);
        command.args([
            "node",
            "--name",
            self.name,
            "--port",
            port,
            "--status",
            &self.at,
            "--interval-ms",
            "200",
        ]);
        command.args([
            "--timeout-ms",
            "100",
            "--alpha",
            "3",
            "--wire",
            "3",
            "--until-input-ends",
            "--for-ms",
            "120000",
        ]);
        command
            .args(seeds.iter().flat_map(|it| ["--seed", &it.place]))
            .args(self.options);
        command
            .stdin(Stdio::piped())
            .stdout(Stdio::null())
            .stderr(Stdio::null());
        self.process = Some(command.spawn().unwrap());
    }

    /// Kills it by SIGKILL, if it runs.
    fn kill(&mut self) {
        if let Some(mut process) = self.process.take() {
            process.kill().unwrap();
            process.wait().unwrap();
        }
    }

    fn client(&self) -> Client {
        Client::new(&*self.at).with_timeout(PATIENCE)
    }

    /// What it knows, and after how many events. None if it doesn't answer.
    fn table(&self) -> Option<(Known, u64)> {
        let table = self.client().table().ok()?;
        Some((
            table
                .members
                .into_iter()
                .map(|it| (it.name.clone(), it))
                .collect(),
            table.version,
        ))
    }
}

impl Drop for Node {
    fn drop(&mut self) {
        self.kill();
    }
}

/// What a follower has seen.
#[derive(Default)]
struct Seen {
    whole: Known,
    changes: Vec<Change>,
    faults: usize,
}

/// A thread that applies the changes of a node to a table, as a service would.
struct Follower {
    seen: Arc<Mutex<Seen>>,
    stopper: Stopper,
    thread: Option<JoinHandle<()>>,
}

impl Follower {
    fn of(node: &Node) -> Follower {
        let watch = node.client().watch();
        let stopper = watch.stopper();
        let seen = Arc::new(Mutex::new(Seen::default()));
        let shared = Arc::clone(&seen);
        let thread = thread::spawn(move || {
            let mut table = Known::new();
            for it in watch {
                let mut seen = shared.lock().unwrap();
                match it {
                    Err(_) => seen.faults += 1,
                    Ok(change) => {
                        change.apply(&mut table);
                        if !change.more {
                            seen.whole = table.clone();
                        }
                        seen.changes.push(change);
                    }
                }
            }
        });
        Follower {
            seen,
            stopper,
            thread: Some(thread),
        }
    }

    /// The statuses of a member that were told, and `forgotten`.
    fn told(&self, name: &str) -> Vec<String> {
        let seen = self.seen.lock().unwrap();
        let rows = seen.changes.iter().filter(|it| it.name == name);
        rows.map(|it| {
            it.member
                .as_ref()
                .map_or("forgotten".into(), |it| it.status.to_string())
        })
        .collect()
    }

    /// Waits until its table is that of the node, and has these statuses.
    fn agrees(&self, node: &Node, wanted: &[(&str, Status)]) {
        let end = Instant::now() + PATIENCE;
        loop {
            let own = node.table().map(|it| it.0);
            let whole = self.seen.lock().unwrap().whole.clone();
            let got: Vec<_> = whole
                .values()
                .map(|it| (it.name.as_str(), it.status))
                .collect();
            if got == wanted && own.as_ref() == Some(&whole) {
                return;
            }
            assert!(
                Instant::now() < end,
                "wanted {wanted:?}; the follower has {whole:?}, and the node {own:?}"
            );
            thread::sleep(Duration::from_millis(20));
        }
    }
}

impl Drop for Follower {
    fn drop(&mut self) {
        self.stopper.stop();
        if let Some(thread) = self.thread.take() {
            // A panic of it is told by the thread itself.
            let _is_well = thread.join();
        }
    }
}

/// The statuses of a, b and c in a table, of which c has this one.
fn all_three(last: Status) -> [(&'static str, Status); 3] {
    [("a", Status::Alive), ("b", Status::Alive), ("c", last)]
}

/// Also the node that is asked is killed, and isn't there at the start.
#[test]
fn a_table_follows_nodes_that_die_and_come_back() {
    let made = (
        Node::new("a", &[]),
        Node::new("b", &[]),
        Node::new("c", &[]),
    );
    let (mut a, mut b, mut c) = match made {
        (Some(a), Some(b), Some(c)) => (a, b, c),
        _ => return,
    };
    let follower = Follower::of(&b);
    a.start(&[]);
    c.start(&[&a]);
    until(PATIENCE, "nobody is asked", || {
        follower.seen.lock().unwrap().faults > 1
    });
    b.start(&[&a]);
    follower.agrees(&b, &all_three(Status::Alive));
    c.kill();
    follower.agrees(&b, &all_three(Status::Failed));
    c.start(&[&a, &b]);
    follower.agrees(&b, &all_three(Status::Alive));
    b.kill();
    c.kill();
    b.start(&[&a]);
    follower.agrees(&b, &all_three(Status::Failed));
    a.kill();
    b.kill();
    b.start(&[]);
    follower.agrees(&b, &[("b", Status::Alive)]);
    for name in ["a", "c"] {
        assert_eq!(
            follower.told(name).last().map(String::as_str),
            Some("forgotten")
        );
    }
}

/// So its versions don't show that it was started again, and the table comes anew all the same.
#[test]
fn a_node_comes_further_than_before_while_nobody_takes_a_change() {
    let (mut a, mut b) = match (Node::new("a", &[]), Node::new("b", &[])) {
        (Some(a), Some(b)) => (a, b),
        _ => return,
    };
    b.start(&[]);
    a.start(&[&b]);
    let (mut table, mut latest) = (Known::new(), 0);
    let watch = a.client().watch();
    let stopper = watch.stopper();
    // If no change comes, the test fails and doesn't hang.
    thread::spawn(move || {
        thread::sleep(PATIENCE);
        stopper.stop();
    });
    let mut changes = watch.flatten();
    while table.len() < 2 {
        let change = changes.next().unwrap();
        change.apply(&mut table);
        latest = change.version;
    }
    a.kill();
    b.kill();
    a.start(&[]);
    until(PATIENCE, "it comes no further", || {
        a.table().map_or(false, |it| it.1 > latest + 5)
    });
    while table.len() > 1 {
        changes.next().unwrap().apply(&mut table);
    }
    // What is left of the table that comes anew.
    until(PATIENCE, "the tables differ", || {
        changes.next().unwrap().apply(&mut table);
        a.table().map(|it| it.0).as_ref() == Some(&table)
    });
}

#[test]
fn a_node_forgets_who_is_gone() {
    let (mut a, mut b) = match (
        Node::new("a", &["--forget-ms", "1000"]),
        Node::new("b", &[]),
    ) {
        (Some(a), Some(b)) => (a, b),
        _ => return,
    };
    a.start(&[]);
    b.start(&[&a]);
    let follower = Follower::of(&a);
    follower.agrees(&a, &[("a", Status::Alive), ("b", Status::Alive)]);
    b.kill();
    follower.agrees(&a, &[("a", Status::Alive)]);
    let told = follower.told("b");
    assert!(
        told.len() > 2 && told.ends_with(&["failed".into(), "forgotten".into()]),
        "{told:?}"
    );
}

#[test]
fn a_node_is_asked() {
    let mut a = match Node::new("a", &[]) {
        Some(a) => a,
        None => return,
    };
    a.start(&[]);
    until(PATIENCE, "it doesn't answer", || a.table().is_some());
    let health = a.client().health().unwrap();
    assert_eq!(
        (health.name.as_str(), health.live, health.ousted),
        ("a", 1, false)
    );
    assert_eq!(
        a.client().member("a").unwrap().map(|it| it.status),
        Some(Status::Alive)
    );
    assert_eq!(a.client().member("b"), Ok(None));
}
