//! One public call with everything that is lent to it, and its outcome, from the naive implementation or the library.
//!
//! The library is reached through `server.c`, a process that reads requests and answers each. A request is its length
//! in bytes, the call's number, and three lists with their lengths: numbers, tables, and the bytes of a deck or card.
//! An answer is the call's answer, whether the bytes around the lent tables are as they were, and the tables and bytes
//! afterwards, in the same order. Lengths are four bytes, numbers and entries two, the least byte first.

use crate::naive::{self, Level, Seven, Works};
use std::io::{Read, Write};
use std::process::{Child, Command, Stdio};

#[derive(Clone, Copy, PartialEq, Eq, Debug)]
pub enum Call {
    Level,
    Draw,
    Start,
    Check,
    Join,
    JoinAs,
    JoinList,
    Depth,
    Holes,
    Counts,
    Turns,
    Read,
    Write,
    PartRefusal,
}

/// A call, its numbers and what is lent to it. `tables` are in the order of the C header; of a reading they are the cell
/// table, the two size slots and the card slot.
#[derive(Clone, Debug)]
pub struct Request {
    pub call: Call,
    pub numbers: Vec<u16>,
    pub tables: Vec<Vec<u16>>,
    pub bytes: Vec<u8>,
}

/// The number answered, and everything lent as it is afterwards.
#[derive(Clone, PartialEq, Eq, Debug)]
pub struct Answer {
    pub number: u16,
    pub tables: Vec<Vec<u16>>,
    pub bytes: Vec<u8>,
}

const SEVEN: [&str; 7] = ["next1", "side1", "next3", "other3", "parent", "cells", "borders"];
const WORKS: [&str; 4] = ["work_a", "work_b", "work_c", "work_d"];

impl Call {
    /// The names of the tables lent to the call.
    pub fn tables(self) -> Vec<&'static str> {
        match self {
            Call::Level => [&["sheet", "next", "other", "side"][..], &WORKS].concat(),
            Call::Draw => [&["sheet"][..], &SEVEN, &WORKS].concat(),
            Call::Start => [&["sheet", "owners"][..], &SEVEN, &WORKS].concat(),
            Call::Check | Call::Join => [&SEVEN[..], &WORKS].concat(),
            Call::JoinAs => [&SEVEN[..], &["owners"], &WORKS].concat(),
            Call::JoinList => [&SEVEN[..], &["names", "place"], &WORKS].concat(),
            Call::Depth => [&SEVEN[..], &["depth"], &WORKS].concat(),
            Call::Holes => [&SEVEN[..], &["holes"], &WORKS].concat(),
            Call::Counts => [&SEVEN[..], &["depths", "holes"], &WORKS].concat(),
            Call::Turns => [&SEVEN[..], &["right", "left"], &WORKS].concat(),
            Call::Read => vec!["cells", "size", "card"],
            Call::Write => vec!["sheet"],
            Call::PartRefusal => vec![],
        }
    }
}

impl Request {
    /// What the naive implementation answers and leaves.
    pub fn by_naive(&self) -> Answer {
        let mut lent = self.tables.clone().into_iter();
        let mut table = || lent.next().expect("a table");
        let mut bytes = self.bytes.clone();
        let number = |k: usize| self.numbers[k];
        let (number, tables) = match self.call {
            Call::Level => {
                let sheet = table();
                let mut level = Level { next: table(), other: table(), side: table() };
                let mut works = [table(), table(), table(), table()];
                let answer = naive::level_call(number(0), number(1), number(2), &sheet, &mut level, &mut works);
                (answer, lay(vec![sheet, level.next, level.other, level.side], works))
            }
            Call::Draw => {
                let sheet = table();
                let mut seven = seven(&mut table);
                let mut works = [table(), table(), table(), table()];
                let answer = naive::draw_call(number(0), number(1), &sheet, &mut seven, &mut works);
                (answer, lay([vec![sheet], list(seven)].concat(), works))
            }
            Call::Start => {
                let (sheet, owners) = (table(), table());
                let mut seven = seven(&mut table);
                let mut works = [table(), table(), table(), table()];
                let answer = naive::start_call(number(0), number(1), &sheet, &owners, &mut seven, &mut works);
                (answer, lay([vec![sheet, owners], list(seven)].concat(), works))
            }
            Call::Check => {
                let seven = seven(&mut table);
                let mut works = [table(), table(), table(), table()];
                let answer = naive::check_call(number(0), number(1), &seven, &mut works);
                (answer, lay(list(seven), works))
            }
            Call::Join => {
                let mut seven = seven(&mut table);
                let mut works = [table(), table(), table(), table()];
                let answer = naive::join_call(number(0), number(1), &mut seven, number(2), number(3), &mut works);
                (answer, lay(list(seven), works))
            }
            Call::JoinAs => {
                let mut seven = seven(&mut table);
                let owners = table();
                let mut works = [table(), table(), table(), table()];
                let (size, names) = ((number(0), number(1)), (number(3), number(4)));
                let answer = naive::join_as_call(size, &mut seven, &owners, number(2), names, &mut works);
                (answer, lay([list(seven), vec![owners]].concat(), works))
            }
            Call::JoinList => {
                let mut seven = seven(&mut table);
                let (names, mut place) = (table(), table());
                let mut works = [table(), table(), table(), table()];
                let answer = naive::join_list_call(number(0), number(1), &mut seven, &names, &mut place[0], &mut works);
                (answer, lay([list(seven), vec![names, place]].concat(), works))
            }
            Call::Depth | Call::Holes => {
                let seven = seven(&mut table);
                let mut slot = table();
                let mut works = [table(), table(), table(), table()];
                let call = if self.call == Call::Depth { naive::depth_call } else { naive::holes_call };
                let answer = call(number(0), number(1), &seven, number(2), &mut slot[0], &mut works);
                (answer, lay([list(seven), vec![slot]].concat(), works))
            }
            Call::Counts | Call::Turns => {
                let seven = seven(&mut table);
                let (mut first, mut second) = (table(), table());
                let mut works = [table(), table(), table(), table()];
                let call = if self.call == Call::Counts { naive::counts_call } else { naive::turns_call };
                let answer = call(number(0), number(1), &seven, &mut first, &mut second, &mut works);
                (answer, lay([list(seven), vec![first, second]].concat(), works))
            }
            Call::Read => {
                let (mut cells, size, mut card) = (table(), table(), table());
                let mut size = [size[0], size[1]];
                let answer = naive::read_call(&bytes, &mut cells, &mut size, &mut card[0]);
                (answer, vec![cells, size.to_vec(), card])
            }
            Call::Write => {
                let sheet = table();
                (naive::write_call(number(0), number(1), &sheet, &mut bytes), vec![sheet])
            }
            Call::PartRefusal => (naive::part_refusal_call(number(0), &bytes), vec![]),
        };
        Answer { number, tables, bytes }
    }

    fn encoded(&self) -> Vec<u8> {
        let mut out = vec![0; 4];
        length(&mut out, self.call as usize);
        length(&mut out, self.numbers.len());
        words(&mut out, &self.numbers);
        length(&mut out, self.tables.len());
        for table in &self.tables {
            length(&mut out, table.len());
            words(&mut out, table);
        }
        length(&mut out, self.bytes.len());
        out.extend(&self.bytes);
        let size = out.len() as u32 - 4;
        out[..4].copy_from_slice(&size.to_le_bytes());
        out
    }
}

fn seven(table: &mut impl FnMut() -> Vec<u16>) -> Seven {
    Seven {
        next1: table(),
        side1: table(),
        next3: table(),
        other3: table(),
        parent: table(),
        cells: table(),
        borders: table(),
    }
}

/// The first seven of some tables.
pub fn drawn(tables: &[Vec<u16>]) -> Seven {
    let mut tables = tables.iter().cloned();
    seven(&mut || tables.next().expect("a table"))
}

/// The seven tables in the order in which they are lent.
pub fn list(seven: Seven) -> Vec<Vec<u16>> {
    vec![seven.next1, seven.side1, seven.next3, seven.other3, seven.parent, seven.cells, seven.borders]
}

fn lay(tables: Vec<Vec<u16>>, works: Works) -> Vec<Vec<u16>> {
    [tables, works.to_vec()].concat()
}

fn length(out: &mut Vec<u8>, n: usize) {
    out.extend((n as u32).to_le_bytes());
}

fn words(out: &mut Vec<u8>, words: &[u16]) {
    out.extend(words.iter().flat_map(|word| word.to_le_bytes()));
}

/// The library in a process of its own. It is started again if it has ended.
pub struct Server {
    command: Vec<String>,
    child: Option<Child>,
}

impl Server {
    pub fn new(command: Vec<String>) -> Server {
        Server { command, child: None }
    }

    /// What the library answers and leaves, or what went wrong.
    pub fn answer(&mut self, request: &Request) -> Result<Answer, String> {
        let answer = self.ask(request);
        if answer.is_err() {
            self.stop();
        }
        answer
    }

    fn ask(&mut self, request: &Request) -> Result<Answer, String> {
        if self.child.is_none() {
            let mut command = Command::new(&self.command[0]);
            command.args(&self.command[1..]).stdin(Stdio::piped()).stdout(Stdio::piped());
            self.child = Some(command.spawn().map_err(|e| format!("the server does not start: {e}"))?);
        }
        let child = self.child.as_mut().expect("a server");
        let ended = |e: std::io::Error| format!("the server ended: {e}");
        child.stdin.as_mut().expect("its input").write_all(&request.encoded()).map_err(ended)?;
        let entries: usize = request.tables.iter().map(Vec::len).sum();
        let mut got = vec![0; 4 + 2 * entries + request.bytes.len()];
        child.stdout.as_mut().expect("its output").read_exact(&mut got).map_err(ended)?;
        let word = |k: usize| u16::from_le_bytes([got[k], got[k + 1]]);
        if word(2) != 0 {
            return Err("bytes around the lent tables were written".into());
        }
        let mut at = 4;
        let mut tables = Vec::new();
        for table in &request.tables {
            tables.push((0..table.len()).map(|k| word(at + 2 * k)).collect());
            at += 2 * table.len();
        }
        Ok(Answer { number: word(0), tables, bytes: got[at..].to_vec() })
    }

    fn stop(&mut self) {
        if let Some(mut child) = self.child.take() {
            let _ = child.kill();
            let _ = child.wait();
        }
    }
}

impl Drop for Server {
    fn drop(&mut self) {
        self.stop();
    }
}

/// Where two answers first differ, or none where they agree.
pub fn difference(call: Call, naive: &Answer, library: &Answer) -> Option<String> {
    if naive.number != library.number {
        return Some(format!("the answer is {}, the paper's is {}", library.number, naive.number));
    }
    for ((name, ours), theirs) in call.tables().iter().zip(&naive.tables).zip(&library.tables) {
        if let Some(k) = (0..ours.len()).find(|&k| ours[k] != theirs[k]) {
            return Some(format!("answer {}: {name}[{k}] is {}, by the paper {}", naive.number, theirs[k], ours[k]));
        }
    }
    let k = (0..naive.bytes.len()).find(|&k| naive.bytes[k] != library.bytes[k])?;
    Some(format!("answer {}: byte {k} is {}, by the paper {}", naive.number, library.bytes[k], naive.bytes[k]))
}
