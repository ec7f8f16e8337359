//! Usage: time FILE [TURNS]
//! Prints the least milliseconds of the turns to parse a file, to walk its tree by owned elements and by borrowed ones, to enter and leave borrowed
//! elements, to find the identifiers and clone these, and to read the strings. Last comes the peak memory after the file was parsed once, in bytes
//! per byte of the file.

use rnix::ast::{Ident, Str};
use rnix::syntax::ast::AstNode;
use rnix::{Root, SyntaxNode, TextRange, WalkEvent};
use std::hint::black_box;
use std::time::Instant;
use std::{env, fs};

// The most memory that the process had, in bytes.
fn most_memory() -> f64 {
    let status = fs::read_to_string("/proc/self/status").unwrap_or_default();
    let line = status.lines().find_map(|line| line.strip_prefix("VmHWM:"));
    let kilobytes = line.and_then(|line| line.trim().split(' ').next()?.parse().ok());
    kilobytes.map_or(0.0, |kilobytes: f64| kilobytes * 1024.0)
}

// Milliseconds since a moment.
fn since(start: Instant) -> f64 {
    start.elapsed().as_secs_f64() * 1e3
}

// The length of a range in bytes.
fn length(range: TextRange) -> u64 {
    u64::from(u32::from(range.len()))
}

// The milliseconds of the fastest turn for each task, in the order in which they are printed.
struct Fastest {
    tasks: Vec<(&'static str, f64)>,
}

impl Fastest {
    // Runs a task, and keeps its time if it is the least.
    fn time<T>(&mut self, name: &'static str, task: impl FnOnce() -> T) -> T {
        let start = Instant::now();
        let result = black_box(task());
        let took = since(start);
        match self.tasks.iter_mut().find(|(known, _)| *known == name) {
            Some((_, least)) => *least = took.min(*least),
            None => self.tasks.push((name, took)),
        }
        result
    }
}

// The time of each walk over a tree.
fn walk(root: &SyntaxNode, fastest: &mut Fastest) {
    fastest.time("walk", || {
        let lengths = root
            .descendants_with_tokens()
            .map(|element| length(element.text_range()));
        lengths.sum::<u64>()
    });
    fastest.time("walk-borrowed", || {
        root.elements().map(|element| length(element.text_range())).sum::<u64>()
    });
    fastest.time("preorder", || {
        let entered = root
            .preorder_with_tokens()
            .filter(|event| matches!(event, WalkEvent::Enter(_)));
        entered.count()
    });
    fastest.time("preorder-borrowed", || {
        let entered = root.preorder_ref().filter(|event| matches!(event, WalkEvent::Enter(_)));
        entered.count()
    });
    fastest.time("find", || root.descendants().filter_map(Ident::cast).count());
    fastest.time("find-borrowed", || {
        root.elements().filter_map(|element| element.cast::<Ident>()).count()
    });
    fastest.time("strings", || {
        let strings = root.elements().filter_map(|element| element.cast::<Str>());
        strings.map(|string| string.normalized_parts().len()).sum::<usize>()
    });
}

fn main() {
    let arguments: Vec<String> = env::args().collect();
    let text = fs::read_to_string(&arguments[1]).expect("the file is a text");
    let turns = arguments
        .get(2)
        .map_or(5, |turns| turns.parse().expect("a number of turns"));
    let (before, mut memory) = (most_memory(), 0.0);
    let mut fastest = Fastest { tasks: Vec::new() };
    for turn in 0..turns {
        let root = fastest.time("parse", || Root::parse(&text)).syntax();
        if turn == 0 {
            memory = (most_memory() - before) / text.len().max(1) as f64;
        }
        walk(&root, &mut fastest);
    }
    for (name, took) in fastest.tasks {
        print!("{name} {took:.2} ");
    }
    println!("memory {memory:.1}");
}
