//! Plain Rust over the same file: a decoder and a check, best-first search with the standard library's heap, and a scan
//! with a sort. Nothing here is proved.
#![forbid(unsafe_code)]

use std::cmp::Reverse;
use std::collections::BinaryHeap;

use crate::rows::{Point, Row};

const LEAST: i32 = -10_000_000;
const MOST: i32 = 10_000_000;

#[derive(Clone, Copy)]
pub struct Bounds {
    pub low: [i32; 3],
    pub high: [i32; 3],
}

impl Bounds {
    fn at(point: Point) -> Bounds {
        let ends = [point.easting, point.northing, point.level];
        Bounds { low: ends, high: ends }
    }

    fn is_lawful(&self) -> bool {
        (0..3).all(|axis| LEAST <= self.low[axis] && self.low[axis] <= self.high[axis] && self.high[axis] <= MOST)
    }

    fn contains(&self, inner: &Bounds) -> bool {
        (0..3).all(|axis| self.low[axis] <= inner.low[axis] && inner.high[axis] <= self.high[axis])
    }

    fn gap(&self, other: &Bounds, axis: usize) -> u64 {
        let above = other.low[axis] as i64 - self.high[axis] as i64;
        let below = self.low[axis] as i64 - other.high[axis] as i64;
        above.max(below).max(0) as u64
    }
}

pub trait Measure {
    fn distance(query: &Bounds, bounds: &Bounds) -> u64;
}

pub struct Euclidean;
pub struct Manhattan;
pub struct Chessboard;

impl Measure for Euclidean {
    fn distance(query: &Bounds, bounds: &Bounds) -> u64 {
        (0..3).map(|axis| query.gap(bounds, axis).pow(2)).sum()
    }
}

impl Measure for Manhattan {
    fn distance(query: &Bounds, bounds: &Bounds) -> u64 {
        (0..3).map(|axis| query.gap(bounds, axis)).sum()
    }
}

impl Measure for Chessboard {
    fn distance(query: &Bounds, bounds: &Bounds) -> u64 {
        query.gap(bounds, 0).max(query.gap(bounds, 1)).max(query.gap(bounds, 2))
    }
}

#[derive(Clone, Copy)]
struct Node {
    level: u8,
    places: u8,
    first: u16,
}

#[derive(Clone, Copy)]
struct Entry {
    bounds: Bounds,
    target: u16,
}

pub struct Book {
    nodes: Vec<Node>,
    entries: Vec<Entry>,
    kinds: Vec<u8>,
}

struct Reader<'a>(&'a [u8]);

impl<'a> Reader<'a> {
    fn bytes(&mut self, count: usize) -> Result<&'a [u8], u8> {
        if count > self.0.len() {
            return Err(1);
        }
        let (taken, rest) = self.0.split_at(count);
        self.0 = rest;
        Ok(taken)
    }

    fn count(&mut self, least: usize, most: usize) -> Result<usize, u8> {
        let count = u16_at(self.bytes(2)?, 0) as usize;
        if count < least || count > most { Err(2) } else { Ok(count) }
    }
}

fn u16_at(bytes: &[u8], at: usize) -> u16 {
    u16::from_le_bytes([bytes[at], bytes[at + 1]])
}

fn i32_at(bytes: &[u8], at: usize) -> i32 {
    i32::from_le_bytes([bytes[at], bytes[at + 1], bytes[at + 2], bytes[at + 3]])
}

impl Book {
    /// The book in the file, or the number of the first test that fails.
    pub fn decode(file: &[u8]) -> Result<Book, u8> {
        let mut reader = Reader(file);
        let count = reader.count(1, 512)?;
        let records = reader.bytes(count * 4)?;
        let nodes: Vec<Node> = records
            .chunks_exact(4)
            .map(|record| Node { level: record[0], places: record[1], first: u16_at(record, 2) })
            .collect();
        let mut total = 0;
        for node in &nodes {
            if node.level > 7 || node.places > 16 || node.first as usize != total {
                return Err(3);
            }
            total += node.places as usize;
        }
        let count = reader.count(0, 2048)?;
        if count != total {
            return Err(3);
        }
        let entries = reader
            .bytes(count * 26)?
            .chunks_exact(26)
            .map(|record| Entry {
                bounds: Bounds {
                    low: [i32_at(record, 0), i32_at(record, 4), i32_at(record, 8)],
                    high: [i32_at(record, 12), i32_at(record, 16), i32_at(record, 20)],
                },
                target: u16_at(record, 24),
            })
            .collect();
        let count = reader.count(0, 2048)?;
        let kinds = reader.bytes(count)?.to_vec();
        if kinds.iter().any(|kind| !(1..=5).contains(kind)) {
            return Err(4);
        }
        if !reader.0.is_empty() {
            return Err(1);
        }
        Ok(Book { nodes, entries, kinds })
    }

    fn entries_of(&self, node: usize) -> &[Entry] {
        let node = &self.nodes[node];
        let first = node.first as usize;
        &self.entries[first..first + node.places as usize]
    }

    /// How many picks are named, or the number of the first fault.
    pub fn check(&self) -> Result<usize, u8> {
        let root = self.nodes.len() - 1;
        let mut picks = vec![false; self.kinds.len()];
        let mut children = vec![false; root];
        for (number, node) in self.nodes.iter().enumerate() {
            if number < root && node.places == 0 {
                return Err(13);
            }
            for entry in self.entries_of(number) {
                if !entry.bounds.is_lawful() {
                    return Err(14);
                }
                let target = entry.target as usize;
                let named = if node.level == 0 { &mut picks } else { &mut children };
                if target >= named.len() {
                    return Err(15);
                }
                if node.level > 0 {
                    if self.nodes[target].level + 1 != node.level {
                        return Err(16);
                    }
                    let mut inner = self.entries_of(target).iter().filter(|inner| inner.bounds.is_lawful());
                    if inner.any(|inner| !entry.bounds.contains(&inner.bounds)) {
                        return Err(17);
                    }
                }
                if std::mem::replace(&mut named[target], true) {
                    return Err(18);
                }
            }
        }
        if children.contains(&false) {
            return Err(19);
        }
        Ok(picks.iter().filter(|named| **named).count())
    }

    pub fn load(file: &[u8]) -> Result<(Book, usize), u8> {
        let book = Book::decode(file)?;
        let picks = book.check()?;
        Ok((book, picks))
    }
}

/// At equal distance nodes come before picks.
#[derive(Clone, Copy, PartialEq, Eq, PartialOrd, Ord)]
enum Class {
    Node,
    Pick,
}

#[derive(Clone, Copy, PartialEq, Eq, PartialOrd, Ord)]
struct Waiting {
    distance: u64,
    class: Class,
    number: u16,
    top: i32,
}

/// The picks of a book, nearest first.
struct Search<'a, M> {
    book: &'a Book,
    query: Bounds,
    waiting: BinaryHeap<Reverse<Waiting>>,
    measure: std::marker::PhantomData<M>,
}

impl<'a, M: Measure> Search<'a, M> {
    fn new(book: &'a Book, query: Bounds) -> Self {
        let root = Waiting { distance: 0, class: Class::Node, number: book.nodes.len() as u16 - 1, top: 0 };
        let mut waiting = BinaryHeap::new();
        waiting.push(Reverse(root));
        Search { book, query, waiting, measure: std::marker::PhantomData }
    }

    fn open(&mut self, number: u16) {
        let class = if self.book.nodes[number as usize].level == 0 { Class::Pick } else { Class::Node };
        for entry in self.book.entries_of(number as usize) {
            self.waiting.push(Reverse(Waiting {
                distance: M::distance(&self.query, &entry.bounds),
                class,
                number: entry.target,
                top: entry.bounds.high[2],
            }));
        }
    }
}

impl<M: Measure> Iterator for Search<'_, M> {
    type Item = Row;

    fn next(&mut self) -> Option<Row> {
        while let Some(Reverse(first)) = self.waiting.pop() {
            match first.class {
                Class::Pick => return Some(Row { distance: first.distance, top: first.top, pick: first.number }),
                Class::Node => self.open(first.number),
            }
        }
        None
    }
}

/// The first rows of the ranking for each query, by best-first search; how many rows in all.
pub fn search<M: Measure>(file: &[u8], queries: &[Point], each: usize, rows: &mut [Row]) -> usize {
    let Ok((book, _)) = Book::load(file) else { return 0 };
    let mut told = 0;
    for &point in queries {
        for row in Search::<M>::new(&book, Bounds::at(point)).take(each) {
            rows[told] = row;
            told += 1;
        }
    }
    told
}

/// The same rows by a scan of all picks and a sort, or for a few rows by a selection and a sort of these.
pub fn scan<M: Measure>(file: &[u8], queries: &[Point], each: usize, rows: &mut [Row]) -> usize {
    let Ok((book, _)) = Book::load(file) else { return 0 };
    let mut all: Vec<Row> = Vec::with_capacity(book.entries.len());
    let mut told = 0;
    for &point in queries {
        let query = Bounds::at(point);
        all.clear();
        for (number, node) in book.nodes.iter().enumerate() {
            if node.level == 0 {
                all.extend(book.entries_of(number).iter().map(|entry| Row {
                    distance: M::distance(&query, &entry.bounds),
                    top: entry.bounds.high[2],
                    pick: entry.target,
                }));
            }
        }
        let key = |row: &Row| (row.distance, row.pick);
        if each < all.len() {
            all.select_nth_unstable_by_key(each, key);
            all.truncate(each);
        }
        all.sort_unstable_by_key(key);
        rows[told..told + all.len()].copy_from_slice(&all);
        told += all.len();
    }
    told
}
