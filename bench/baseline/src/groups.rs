//! Judgements shared by sessions that must fail alike.
//!
//! The ongoing predicates of a right without time fall into four classes: those that read no attribute, the subject's,
//! the object's, or both. For each class the accessing sessions of the right with the same entities on the sides that
//! the class reads are one group, judged once for all: a write costs one judgement a group and not one a session.
//! Predicates with time are judged session by session, by the index.

use crate::engine::{is_accessing, Phase};
use crate::policy::{Place, Policy, Predicate, Right, Side, Test};
use crate::state::{FastMap, Session, State, NOBODY};
use std::cmp::Reverse;
use std::collections::BinaryHeap;

const CLASSES: usize = 4;
const READS_SUBJECT: usize = 1;
const READS_OBJECT: usize = 2;

type Key = (u32, u32, u32);

#[derive(Default)]
struct Class {
    predicates: Vec<usize>,
    reads: Vec<Place>,
}

/// A right's ongoing predicates, divided.
struct Division {
    classes: [Class; CLASSES],
    has_timed: bool,
    /// What the predicates with time read.
    timed_reads: Vec<Place>,
}

fn is_timed(predicate: &Predicate) -> bool {
    predicate.has_lasts || matches!(predicate.test, Test::Duty(_))
}

fn put_all_once(places: &mut Vec<Place>, more: &[Place]) {
    for place in more {
        if !places.contains(place) {
            places.push(*place);
        }
    }
}

fn divide(right: &Right) -> Division {
    let mut division = Division { classes: Default::default(), has_timed: false, timed_reads: Vec::new() };
    for (number, predicate) in right.ongoing.iter().enumerate() {
        if is_timed(predicate) {
            division.has_timed = true;
            put_all_once(&mut division.timed_reads, &predicate.reads);
            continue;
        }
        let reads = |side: Side| predicate.reads.iter().any(|place| place.side == side);
        let subject = if reads(Side::Subject) { READS_SUBJECT } else { 0 };
        let object = if reads(Side::Object) { READS_OBJECT } else { 0 };
        let class = &mut division.classes[subject | object];
        class.predicates.push(number);
        put_all_once(&mut class.reads, &predicate.reads);
    }
    division
}

struct Group {
    right: u32,
    class: usize,
    subject: u32,
    object: u32,
    holds: bool,
    accessing: u32,
    /// Rising session numbers; those that access no longer stay for a while, but never at `first`.
    members: Vec<u32>,
    first: usize,
}

impl Group {
    fn least(&self) -> u32 {
        self.members[self.first]
    }

    fn put(&mut self, number: u32) {
        self.accessing += 1;
        match self.members.last() {
            Some(last) if *last > number => {
                let behind = self.members[self.first..].partition_point(|member| *member < number);
                self.members.insert(self.first + behind, number);
            }
            _ => self.members.push(number),
        }
    }

    fn skip_gone(&mut self, phases: &[Phase]) {
        if self.members.len() > 64 && self.members.len() > 2 * self.accessing as usize {
            self.members.retain(|member| is_accessing(phases, *member));
            self.first = 0;
        } else {
            while !is_accessing(phases, self.members[self.first]) {
                self.first += 1;
            }
        }
    }
}

pub struct Groups<'a> {
    policy: &'a Policy,
    divisions: Vec<Division>,
    groups: Vec<Group>,
    numbers: FastMap<Key, u32>,
    /// By `Side` and cell, the groups that read it.
    readers: [Vec<Vec<u32>>; 3],
    /// The least member of each group that fails, as it was when it was put.
    failing: BinaryHeap<Reverse<(u32, u32)>>,
}

impl<'a> Groups<'a> {
    pub fn new(policy: &'a Policy) -> Groups<'a> {
        Groups {
            policy,
            divisions: policy.rights.iter().map(divide).collect(),
            groups: Vec::new(),
            numbers: FastMap::default(),
            readers: [Vec::new(), Vec::new(), vec![Vec::new(); policy.attributes[2].len()]],
            failing: BinaryHeap::new(),
        }
    }

    pub fn grow(&mut self, side: Side, cells: usize) {
        self.readers[side as usize].resize(cells, Vec::new());
    }

    /// What the predicates with time of a right read. None where there are none.
    pub fn timed_reads(&self, right: u32) -> Option<&[Place]> {
        let division = &self.divisions[right as usize];
        division.has_timed.then_some(&division.timed_reads)
    }

    fn judge(&self, state: &State, group: &Group) -> bool {
        let right = &self.policy.rights[group.right as usize];
        let session = Session { right: group.right, caller: 0, subject: group.subject, object: group.object, start: 0 };
        let cells = state.cells_of(&session);
        let predicates = &self.divisions[group.right as usize].classes[group.class].predicates;
        predicates.iter().all(|number| match &right.ongoing[*number].test {
            Test::Formula(formula) => state.formula(formula, cells, 0),
            Test::Duty(_) => true,
        })
    }

    /// Judges the groups that read a cell which was written, and forgets those without members.
    pub fn written(&mut self, state: &State, side: Side, cell: usize) {
        if self.readers[side as usize][cell].is_empty() {
            return;
        }
        let mut readers = std::mem::take(&mut self.readers[side as usize][cell]);
        readers.retain(|number| self.judge_again(state, *number));
        self.readers[side as usize][cell] = readers;
    }

    /// Whether the group still has members.
    fn judge_again(&mut self, state: &State, number: u32) -> bool {
        let group = &self.groups[number as usize];
        if group.accessing == 0 {
            return false;
        }
        let (did, holds) = (group.holds, self.judge(state, group));
        if did && !holds {
            self.failing.push(Reverse((group.least(), number)));
        }
        self.groups[number as usize].holds = holds;
        true
    }

    fn key(session: &Session, class: usize) -> Key {
        (
            session.right << 2 | class as u32,
            if class & READS_SUBJECT != 0 { session.subject } else { NOBODY },
            if class & READS_OBJECT != 0 { session.object } else { NOBODY },
        )
    }

    fn is_used(&self, right: u32, class: usize) -> bool {
        !self.divisions[right as usize].classes[class].predicates.is_empty()
    }

    /// A session's group of a class, made where it is the first.
    fn group_of(&mut self, state: &State, session: &Session, class: usize) -> u32 {
        let key = Groups::key(session, class);
        if let Some(number) = self.numbers.get(&key) {
            return *number;
        }
        let number = self.groups.len() as u32;
        let mut group = Group {
            right: session.right,
            class,
            subject: session.subject,
            object: session.object,
            holds: true,
            accessing: 0,
            members: Vec::new(),
            first: 0,
        };
        group.holds = self.judge(state, &group);
        self.groups.push(group);
        self.numbers.insert(key, number);
        let cells = state.cells_of(session);
        for place in &self.divisions[session.right as usize].classes[class].reads {
            self.readers[place.side as usize][state.cell(*place, cells)].push(number);
        }
        number
    }

    /// A session begins to access.
    pub fn join(&mut self, state: &State, session: &Session, number: u32) {
        for class in 0..CLASSES {
            if !self.is_used(session.right, class) {
                continue;
            }
            let group_number = self.group_of(state, session, class);
            let group = &mut self.groups[group_number as usize];
            group.put(number);
            if !group.holds {
                self.failing.push(Reverse((group.least(), group_number)));
            }
        }
    }

    /// A session accesses no longer, as its phase says by now.
    pub fn leave(&mut self, phases: &[Phase], session: &Session) {
        for class in 0..CLASSES {
            if !self.is_used(session.right, class) {
                continue;
            }
            let key = Groups::key(session, class);
            let group = &mut self.groups[self.numbers[&key] as usize];
            group.accessing -= 1;
            if group.accessing == 0 {
                group.members = Vec::new();
                self.numbers.remove(&key);
            } else {
                group.skip_gone(phases);
            }
        }
    }

    /// The least session of a group that fails.
    pub fn least_failing(&mut self) -> Option<u32> {
        loop {
            let Reverse((least, number)) = *self.failing.peek()?;
            let group = &self.groups[number as usize];
            if group.accessing == 0 || group.holds {
                self.failing.pop();
            } else if group.least() == least {
                return Some(least);
            } else {
                // Its least member left in the meantime.
                let least = group.least();
                self.failing.pop();
                self.failing.push(Reverse((least, number)));
            }
        }
    }
}
