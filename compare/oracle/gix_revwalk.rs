//! Stand-ins for the graph and the priority queue, with the meaning that the rules give to them: rows are numbered in
//! the order of their making, a lookup reads the rows first and then the source, and a book has so many rows and links.
//! Of equal dates the entry that came in first is drawn first.
use gix_hash::ObjectId;
use std::cell::RefCell;
use std::collections::{HashMap, VecDeque};
use std::rc::Rc;

/// What the source has of an id that is not absent.
#[derive(Clone)]
pub enum Held {
    Failing,
    Commit { date: i64, parents: Vec<ObjectId> },
}

/// The rows of one walk over a source.
pub struct Graph<'find, 'cache, T> {
    pub source: HashMap<ObjectId, Held>,
    pub rows: Vec<(ObjectId, T)>,
    places: HashMap<ObjectId, usize>,
    most_rows: usize,
    free_links: usize,
    lifetimes: std::marker::PhantomData<(&'find (), &'cache ())>,
}

pub mod graph {
    use gix_hash::ObjectId;

    /// A commit of the graph.
    pub struct Commit<T> {
        pub parents: Vec<ObjectId>,
        pub commit_time: gix_date::SecondsSinceUnixEpoch,
        pub data: T,
    }

    pub type IdMap<T> = std::collections::HashMap<ObjectId, T>;

    pub mod get_or_insert_default {
        /// Why a lookup is denied.
        #[derive(Debug, Clone, Copy, PartialEq)]
        pub enum Error {
            Failing,
            RowsFull,
            LinksFull,
        }
    }
}

use graph::get_or_insert_default::Error;
use graph::Commit;

impl<T: Default> Graph<'_, '_, Commit<T>> {
    pub fn new(source: HashMap<ObjectId, Held>, most_rows: usize, links: usize) -> Self {
        Graph {
            source,
            rows: Vec::new(),
            places: HashMap::new(),
            most_rows,
            free_links: links,
            lifetimes: std::marker::PhantomData,
        }
    }

    pub fn get(&self, id: &ObjectId) -> Option<&Commit<T>> {
        self.places.get(id).map(|&row| &self.rows[row].1)
    }

    pub fn get_mut(&mut self, id: &ObjectId) -> Option<&mut Commit<T>> {
        self.places.get(id).map(|&row| &mut self.rows[row].1)
    }

    pub fn contains(&self, id: &ObjectId) -> bool {
        self.places.contains_key(id)
    }

    /// Looks an id up; `update` is handed the data of the row that is found or made.
    pub fn get_or_insert_commit(
        &mut self,
        id: ObjectId,
        update: impl FnOnce(&mut T),
    ) -> Result<Option<&mut Commit<T>>, Error> {
        if !self.contains(&id) {
            match self.source.get(&id).cloned() {
                None => return Ok(None),
                Some(Held::Failing) => return Err(Error::Failing),
                Some(Held::Commit { date, parents }) => self.add(id, date, parents)?,
            }
        }
        let commit = self.get_mut(&id).expect("it is there by now");
        update(&mut commit.data);
        Ok(Some(commit))
    }

    fn add(&mut self, id: ObjectId, date: i64, parents: Vec<ObjectId>) -> Result<(), Error> {
        if self.rows.len() >= self.most_rows {
            return Err(Error::RowsFull);
        }
        if parents.len() > self.free_links {
            return Err(Error::LinksFull);
        }
        self.free_links -= parents.len();
        self.places.insert(id, self.rows.len());
        let data = T::default();
        self.rows.push((id, Commit { parents, commit_time: date, data }));
        Ok(())
    }
}

type Entries<K, T> = Rc<RefCell<VecDeque<(K, T)>>>;

/// A queue that draws the largest key, and of equal keys the one that came in first. It is one pointer, so that a
/// driver can tell it from the number beside it.
pub struct PriorityQueue<K, T>(pub Entries<K, T>);

thread_local! {
    /// The queue that was made last by `new`: a walk's own, since marking makes its queues of a first entry.
    pub static LAST: RefCell<Option<Entries<i64, ObjectId>>> = const { RefCell::new(None) };
}

impl<K: Ord + 'static, T: 'static> PriorityQueue<K, T> {
    pub fn new() -> Self {
        let entries: Entries<K, T> = Rc::default();
        let any: Box<dyn std::any::Any> = Box::new(entries.clone());
        if let Ok(known) = any.downcast::<Entries<i64, ObjectId>>() {
            LAST.with(|last| *last.borrow_mut() = Some(*known));
        }
        PriorityQueue(entries)
    }
}

impl<K: Ord, T> PriorityQueue<K, T> {
    pub fn insert(&mut self, key: K, value: T) {
        let mut entries = self.0.borrow_mut();
        let place = entries.partition_point(|(other, _)| *other >= key);
        entries.insert(place, (key, value));
    }

    pub fn pop_value(&mut self) -> Option<T> {
        self.0.borrow_mut().pop_front().map(|(_, value)| value)
    }
}

impl<K: Ord, T> FromIterator<(K, T)> for PriorityQueue<K, T> {
    fn from_iter<I: IntoIterator<Item = (K, T)>>(entries: I) -> Self {
        let mut queue = PriorityQueue(Rc::default());
        for (key, value) in entries {
            queue.insert(key, value);
        }
        queue
    }
}
