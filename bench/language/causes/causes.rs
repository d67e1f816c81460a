//! The smallest examples of what the language costs, each a call repeated so often.
//!
//!     causes NAME COUNT
use std::env;
use std::process::ExitCode;

/// A value of 256 bytes.
type Large = [u64; 32];

// What is asked of `arms` and `options`.
enum Question {
    Small(u64),
    First(u64),
    Second(u64),
    Third(u64),
}

#[inline(never)]
fn weight(large: &Large) -> u64 {
    large[0].wrapping_add(large[31])
}

#[inline(never)]
fn made(seed: u64) -> Large {
    [seed; 32]
}

/// A `match` of which three arms hold a large value, and the one that is taken none.
#[inline(never)]
fn arms(question: &Question) -> u64 {
    match question {
        Question::Small(n) => *n,
        Question::First(n) => {
            let large = made(*n);
            weight(&large)
        }
        Question::Second(n) => {
            let large = made(n.wrapping_add(1));
            weight(&large)
        }
        Question::Third(n) => {
            let large = made(n.wrapping_add(2));
            weight(&large)
        }
    }
}

#[inline(never)]
fn found(question: &Question) -> Option<Large> {
    match question {
        Question::First(n) => Some(made(*n)),
        _ => None,
    }
}

/// An option that is none, passed on by two functions that each take it apart.
#[inline(never)]
fn found_first(question: &Question) -> Option<Large> {
    match found(question) {
        Some(large) => Some(large),
        None => None,
    }
}

#[inline(never)]
fn found_again(question: &Question) -> Option<Large> {
    match found_first(question) {
        Some(large) => Some(large),
        None => None,
    }
}

#[inline(never)]
fn options(question: &Question) -> u64 {
    match found_again(question) {
        Some(large) => weight(&large),
        None => 1,
    }
}

/// The first space of 32 bytes.
#[inline(never)]
fn spaces(bytes: &[u8]) -> usize {
    bytes.iter().position(|byte| *byte == b' ').unwrap_or(0)
}

/// Three of the ways in which two numbers compare.
#[derive(Clone, Copy)]
enum Formula {
    Less(i64, i64),
    Same(i64, i64),
    AtLeast(i64, i64),
}

#[inline(never)]
fn comparisons(formula: &Formula) -> u64 {
    let holds = match formula {
        Formula::Less(left, right) => left < right,
        Formula::Same(left, right) => left == right,
        Formula::AtLeast(left, right) => left >= right,
    };
    u64::from(holds)
}

/// Each place is within the list, as a proof shows, and a test in Rust.
#[inline(never)]
fn places(list: &[u64; 64], at: &[u8; 16]) -> u64 {
    let mut sum = 0u64;
    for place in at {
        sum = sum.wrapping_add(list[usize::from(*place & 63)]);
    }
    sum
}

// Calls so often, with the one and the other argument in turn, and adds up what comes back.
macro_rules! times {
    ($count:expr, $at:ident, $call:expr) => {{
        let mut sum = 0u64;
        for i in 0..$count {
            let $at = (i & 1) as usize;
            sum = sum.wrapping_add($call);
        }
        sum
    }};
}

/// A name of at most 32 bytes, as long as it says.
#[derive(Clone, Copy)]
struct Name {
    bytes: [u8; 32],
    len: u64,
}

// What is asked of `copies`.
enum Order {
    Small(u64),
    First(Name),
    Second(Name),
    Third(Name),
}

#[inline(never)]
fn length(name: Name, more: u64) -> u64 {
    name.len.wrapping_add(more)
}

/// A `match` of which three arms pass a copy of a name on, and the one that is taken none.
#[inline(never)]
fn copies(order: &Order) -> u64 {
    match order {
        Order::Small(n) => *n,
        Order::First(name) => length(*name, 1),
        Order::Second(name) => length(*name, 2),
        Order::Third(name) => length(*name, 3),
    }
}

// A formula as a tree.
enum Tree {
    Less(i64, i64),
    Not(Box<Tree>),
    Both(Box<Tree>, Box<Tree>),
}

/// A recursion that is entered once, for a leaf.
#[inline(never)]
fn leaves(tree: &Tree) -> bool {
    match tree {
        Tree::Less(left, right) => left < right,
        Tree::Not(inner) => !leaves(inner),
        Tree::Both(left, right) => leaves(left) && leaves(right),
    }
}

/// A value of 40 bytes put behind others, in room that is there. Where there is none, it comes back.
#[inline(never)]
fn pushes(names: &mut Vec<Name>, name: &Name) -> u64 {
    names.push(*name);
    1
}

fn repeated_pushes(count: u32) -> u64 {
    let name = Name {
        bytes: [97; 32],
        len: 32,
    };
    let mut names = Vec::with_capacity(4096);
    times!(count, _it, pushes(&mut names, &name))
}

fn repeated(name: &str, count: u32) -> u64 {
    let small = [Question::Small(7), Question::Small(8)];
    let lines = [
        *b"a_line_of_thirty_two_bytes_with ",
        *b"another_of_thirty_two_bytes_too ",
    ];
    let less = [Formula::Less(1, 2), Formula::Less(2, 1)];
    let list = [3u64; 64];
    let at = [[9u8; 16], [8u8; 16]];
    let orders = [Order::Small(7), Order::Small(8)];
    let trees = [Tree::Less(1, 2), Tree::Less(2, 1)];
    if name == "arms" {
        times!(count, it, arms(&small[it]))
    } else if name == "options" {
        times!(count, it, options(&small[it]))
    } else if name == "spaces" {
        times!(count, it, spaces(&lines[it]) as u64)
    } else if name == "comparisons" {
        times!(count, it, comparisons(&less[it]))
    } else if name == "places" {
        times!(count, it, places(&list, &at[it]))
    } else if name == "copies" {
        times!(count, it, copies(&orders[it]))
    } else if name == "leaves" {
        times!(count, it, u64::from(leaves(&trees[it])))
    } else {
        0
    }
}

fn main() -> ExitCode {
    let words: Vec<String> = env::args().collect();
    let (name, count) = (words[1].as_str(), words[2].parse().unwrap_or(0));
    let sum = if name == "pushes" {
        repeated_pushes(count)
    } else {
        repeated(name, count)
    };
    ExitCode::from((sum % 251) as u8)
}
