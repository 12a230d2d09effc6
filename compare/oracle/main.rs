//! Plays scenarios from standard input with the Rust walks, and prints what each call gives. With the argument `state`
//! it also prints the count and what waits in the queue, in the order of drawing. With the argument `limits` it reads
//! nothing, and prints what the Rust does where the rules refuse.
use gix_hash::ObjectId;
use gix_negotiate::{window_size, Algorithm, Error, Flags, Graph, Metadata, Negotiator};
use gix_revwalk::{Held, LAST};
use std::collections::HashMap;
use std::fmt::{Display, Write as _};
use std::io::{BufRead, Write as _};
use std::panic::{catch_unwind, AssertUnwindSafe};
use std::str::{FromStr, SplitWhitespace};

type Fallible<T> = Result<T, String>;

#[derive(Clone, Copy)]
enum Call {
    Common(ObjectId),
    Tip(ObjectId),
    Next,
    Ack(ObjectId),
    Note(ObjectId, Flags),
}

struct Scenario {
    algorithm: Algorithm,
    rows: usize,
    links: usize,
    source: HashMap<ObjectId, Held>,
    calls: Vec<Call>,
}

fn parsed<T: FromStr<Err: Display>>(word: &str) -> Fallible<T> {
    word.parse().map_err(|e| format!("{word}: {e}"))
}

fn number(words: &mut SplitWhitespace<'_>) -> Fallible<u16> {
    parsed(words.next().ok_or("a number is missing")?)
}

fn at_end(words: &mut SplitWhitespace<'_>) -> Fallible<()> {
    match words.next() {
        None => Ok(()),
        Some(_) => Err("a word too many".into()),
    }
}

impl Scenario {
    fn begin(words: &mut SplitWhitespace<'_>) -> Fallible<Scenario> {
        let algorithm = match words.next() {
            Some("0") => Algorithm::Noop,
            Some("1") => Algorithm::Consecutive,
            Some("2") => Algorithm::Skipping,
            _ => return Err("no such negotiator".into()),
        };
        let rows = usize::from(number(words)?);
        let links = usize::from(number(words)?);
        at_end(words)?;
        Ok(Scenario { algorithm, rows, links, source: HashMap::new(), calls: Vec::new() })
    }

    fn hold(&mut self, id: ObjectId, held: Held) -> Fallible<()> {
        if !self.calls.is_empty() {
            return Err("a commit after a call".into());
        }
        match self.source.insert(id, held) {
            None => Ok(()),
            Some(_) => Err("an id stands twice in the source".into()),
        }
    }

    fn extend(&mut self, head: &str, words: &mut SplitWhitespace<'_>) -> Fallible<()> {
        if head == "next" {
            self.calls.push(Call::Next);
            return at_end(words);
        }
        let id = ObjectId(number(words)?.into());
        if head == "commit" {
            let date = parsed(words.next().ok_or("a date is missing")?)?;
            let parents = words.map(|word| Ok(ObjectId(parsed::<u16>(word)?.into()))).collect::<Fallible<_>>()?;
            return self.hold(id, Held::Commit { date, parents });
        }
        at_end(words)?;
        if head == "fail" {
            return self.hold(id, Held::Failing);
        }
        self.calls.push(match head {
            "common" => Call::Common(id),
            "tip" => Call::Tip(id),
            "ack" => Call::Ack(id),
            "complete" => Call::Note(id, Flags::COMPLETE),
            "alternate" => Call::Note(id, Flags::ALTERNATE),
            _ => return Err("no such call".into()),
        });
        Ok(())
    }
}

fn denied(error: Error) -> String {
    match error {
        Error::Failing => "no 3".into(),
        Error::RowsFull => "no 4".into(),
        Error::LinksFull => "no 5".into(),
    }
}

fn done(result: Result<(), Error>) -> String {
    result.map_or_else(denied, |()| "ok".into())
}

fn make(negotiator: &mut dyn Negotiator, graph: &mut Graph<'_, '_>, call: Call) -> String {
    match call {
        Call::Common(id) => done(negotiator.known_common(id, graph)),
        Call::Tip(id) => done(negotiator.add_tip(id, graph)),
        Call::Next => match negotiator.next_have(graph) {
            None => "none".into(),
            Some(Ok(id)) => format!("have {id}"),
            Some(Err(error)) => denied(error),
        },
        Call::Ack(id) => negotiator.in_common_with_remote(id, graph).map_or_else(denied, |known| known.to_string()),
        Call::Note(id, flag) => done(graph.get_or_insert_commit(id, |data| data.flags |= flag).map(|_| ())),
    }
}

/// What a panic of the Rust walks stands for: an acknowledgement refused, or a parent missing.
fn panicked(payload: Box<dyn std::any::Any + Send>) -> String {
    let message = match (payload.downcast_ref::<String>(), payload.downcast_ref::<&str>()) {
        (Some(text), _) => text.clone(),
        (_, Some(text)) => text.to_string(),
        _ => "a panic".into(),
    };
    if message.starts_with("Cannot receive ACK") {
        "no 2".into()
    } else if message == "present or inserted" {
        "no 6".into()
    } else {
        format!("panic: {message}")
    }
}

/// The count of a walk: the word of the negotiator that is not its queue's pointer.
fn count(negotiator: &dyn Negotiator) -> usize {
    if std::mem::size_of_val(negotiator) != 2 * std::mem::size_of::<usize>() {
        return 0;
    }
    LAST.with(|last| {
        let last = last.borrow();
        let queue = last.as_ref().expect("a walk with a count has a queue");
        // SAFETY: an `Rc` is one pointer, and the negotiator is two words, one of them an `Rc` of this type.
        unsafe {
            let pointer: usize = std::mem::transmute_copy(queue);
            let words = &*(negotiator as *const dyn Negotiator as *const [usize; 2]);
            if words[0] == pointer { words[1] } else { words[0] }
        }
    })
}

fn push_state(text: &mut String, negotiator: &dyn Negotiator) {
    write!(text, " ; {} ;", count(negotiator)).unwrap();
    LAST.with(|last| {
        if let Some(queue) = last.borrow().as_ref() {
            for (_, id) in queue.borrow().iter() {
                write!(text, " {id}").unwrap();
            }
        }
    });
}

/// Adds the rows that are new, or whose flags or skip numbers are not as they were shown last.
fn push_changes(text: &mut String, graph: &Graph<'_, '_>, shown: &mut Vec<(u16, u16, u8)>) {
    for (row, (id, commit)) in graph.rows.iter().enumerate() {
        let Metadata { original_ttl, ttl, flags } = commit.data;
        let now = (original_ttl, ttl, flags.bits());
        if shown.get(row) == Some(&now) {
            continue;
        }
        write!(text, " {row}:{id}:{}:{original_ttl}:{ttl}", flags.bits()).unwrap();
        match shown.get_mut(row) {
            Some(old) => *old = now,
            None => shown.push(now),
        }
    }
}

fn play(text: &mut String, scenario: Scenario, state: bool) {
    LAST.with(|last| *last.borrow_mut() = None);
    let mut graph: Graph<'_, '_> = gix_revwalk::Graph::new(scenario.source, scenario.rows, scenario.links);
    let mut negotiator = scenario.algorithm.into_negotiator();
    let mut shown = Vec::new();
    let mut stopped = false;
    for call in scenario.calls {
        let answer = if stopped {
            "no 1".into()
        } else {
            attempt(&mut *negotiator, &mut graph, call)
        };
        // A refused acknowledgement leaves the walk as it was; every other denial stops it.
        stopped |= answer.starts_with("no ") && answer != "no 2" || answer.starts_with("panic");
        write!(text, "= {answer}").unwrap();
        push_changes(text, &graph, &mut shown);
        if state {
            push_state(text, &*negotiator);
        }
        text.push('\n');
    }
}

fn push_window(text: &mut String, words: &mut SplitWhitespace<'_>) -> Fallible<()> {
    let stateless = match words.next() {
        Some("stateless") => true,
        Some("stateful") => false,
        _ => return Err("no such transport".into()),
    };
    let previous = match words.next() {
        Some("none") => None,
        Some(word) => Some(parsed::<usize>(word)?),
        None => return Err("a size is missing".into()),
    };
    at_end(words)?;
    // A size above this is denied by the rules; the Rust would go on, and overflow at last.
    match previous {
        Some(size) if size > 1_000_000_000 => writeln!(text, "= no 7").unwrap(),
        _ => writeln!(text, "= {}", window_size(stateless, previous)).unwrap(),
    }
    Ok(())
}

fn push_name(text: &mut String, words: &mut SplitWhitespace<'_>) -> Fallible<()> {
    let name = words.next().ok_or("a name is missing")?;
    at_end(words)?;
    let all = [Algorithm::Noop, Algorithm::Consecutive, Algorithm::Skipping];
    let named = if name == "default" { Some(Algorithm::default()) } else { all.into_iter().find(|a| a.to_string() == name) };
    match named.and_then(|a| all.into_iter().position(|b| a == b)) {
        Some(number) => writeln!(text, "= {number}").unwrap(),
        None => writeln!(text, "= no 8").unwrap(),
    }
    Ok(())
}

struct Session {
    state: bool,
    scenario: Option<Scenario>,
    given: String,
}

impl Session {
    fn take(&mut self, line: &str) -> Fallible<()> {
        let mut words = line.split_whitespace();
        let Some(head) = words.next() else {
            return Ok(());
        };
        if head.starts_with('#') || head.starts_with('=') {
            return Ok(());
        }
        if matches!(head, "walk" | "window" | "name") {
            self.finish();
        }
        match head {
            "walk" => self.scenario = Some(Scenario::begin(&mut words)?),
            "window" => push_window(&mut self.given, &mut words)?,
            "name" => push_name(&mut self.given, &mut words)?,
            _ => self.scenario.as_mut().ok_or("no walk has begun")?.extend(head, &mut words)?,
        }
        Ok(())
    }

    fn finish(&mut self) {
        if let Some(scenario) = self.scenario.take() {
            play(&mut self.given, scenario, self.state);
        }
    }
}

/// Makes the call, and says its answer or its panic.
fn attempt(negotiator: &mut dyn Negotiator, graph: &mut Graph<'_, '_>, call: Call) -> String {
    catch_unwind(AssertUnwindSafe(|| make(negotiator, graph, call))).unwrap_or_else(panicked)
}

/// A chain of commits dated by their numbers, and the walk at its tip.
fn at_tip(algorithm: Algorithm, commits: u32) -> (Box<dyn Negotiator>, Graph<'static, 'static>) {
    let parents = |n: u32| if n > 0 { vec![ObjectId(n - 1)] } else { Vec::new() };
    let source = (0..commits).map(|n| (ObjectId(n), Held::Commit { date: n.into(), parents: parents(n) })).collect();
    let (mut negotiator, mut graph) = (algorithm.into_negotiator(), gix_revwalk::Graph::new(source, usize::MAX, usize::MAX));
    attempt(&mut *negotiator, &mut graph, Call::Tip(ObjectId(commits - 1)));
    (negotiator, graph)
}

/// What the Rust does where the rules refuse.
fn limits() {
    for size in [1_000_000_001, usize::MAX / 11, usize::MAX / 11 + 1, usize::MAX] {
        for stateless in [true, false] {
            let result = catch_unwind(|| window_size(stateless, Some(size)).to_string()).unwrap_or_else(panicked);
            println!("window, stateless {stateless}, {size}: {result}");
        }
    }
    for commits in [65_535, 81_912, 100_000] {
        let (mut negotiator, mut graph) = at_tip(Algorithm::Skipping, commits);
        let last = std::iter::repeat_with(|| attempt(&mut *negotiator, &mut graph, Call::Next)).find(|a| !a.starts_with("have"));
        let largest = graph.rows.iter().map(|(_, commit)| commit.data.original_ttl).max();
        let rows = graph.rows.len();
        println!("skipping, a chain of {commits}: {last:?} with {rows} rows, the largest original_ttl {largest:?}");
    }
    let (mut negotiator, mut graph) = at_tip(Algorithm::Consecutive, 3);
    graph.source.insert(ObjectId(1), Held::Failing);
    graph.source.insert(ObjectId(7), Held::Commit { date: 0, parents: Vec::new() });
    attempt(&mut *negotiator, &mut graph, Call::Tip(ObjectId(7)));
    for _ in 0..3 {
        println!("consecutive, behind a failing parent: {}", attempt(&mut *negotiator, &mut graph, Call::Next));
    }
}

fn main() {
    std::panic::set_hook(Box::new(|_| ()));
    let state = match std::env::args().nth(1).as_deref() {
        None => false,
        Some("state") => true,
        Some("limits") => return limits(),
        Some(_) => {
            eprintln!("the argument is state, limits, or none");
            std::process::exit(2);
        }
    };
    let mut session = Session { state, scenario: None, given: String::new() };
    let mut out = std::io::BufWriter::new(std::io::stdout().lock());
    for (number, line) in std::io::stdin().lock().lines().enumerate() {
        let taken = line.map_err(|e| e.to_string()).and_then(|line| session.take(&line));
        if let Err(error) = taken {
            eprintln!("line {}: {error}", number + 1);
            std::process::exit(1);
        }
        if session.given.len() > 1 << 16 {
            out.write_all(session.given.as_bytes()).expect("standard output");
            session.given.clear();
        }
    }
    session.finish();
    out.write_all(session.given.as_bytes()).expect("standard output");
    out.flush().expect("standard output");
}
