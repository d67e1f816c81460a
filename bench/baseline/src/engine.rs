//! The step: a command's own actions, and then the cascade of revocations that they make due.
//!
//! The three strategies share all but the way in which the sessions to recheck are found, and give the same replies.

use crate::document::Command;
use crate::groups::Groups;
use crate::names::{NameId, Names};
use crate::policy::{Place, Policy, Right, Side, Sort, Value, When};
use crate::state::{Quick, Session, State, NOBODY};
use crate::work_list::WorkList;
use std::cmp::Reverse;
use std::collections::BinaryHeap;

const ENTITIES: usize = 16_384;
const ACTS: usize = 1_048_576;
const SESSIONS: usize = 1_048_576;
const ACCESSING: usize = 65_536;
/// Above this length a list of readers is cleared of those that access no longer, before it takes more memory.
const SHORT_LIST: usize = 64;

#[derive(Clone, Copy, PartialEq)]
pub enum Phase {
    Requesting,
    Denied,
    Accessing,
    Revoked,
    Ended,
}

pub fn is_accessing(phases: &[Phase], number: u32) -> bool {
    phases[number as usize] == Phase::Accessing
}

#[derive(Clone, Copy, PartialEq)]
pub enum Strategy {
    /// Each cell has the sessions that read it; a write judges each of them.
    Index,
    /// Sessions that must fail alike are judged once for all.
    Grouped,
    /// All accessing sessions are judged after each step and each revocation: the definition as it stands.
    Recheck,
}

/// What a command came to. Only a change has a place in the history.
#[derive(Clone, Copy, PartialEq)]
pub enum Step {
    Changed,
    Read,
    Refused,
}

/// Why a command was refused: its reply.
type Refusal = &'static str;

pub struct Engine<'a> {
    policy: &'a Policy,
    names: &'a Names,
    strategy: Strategy,
    state: State<'a>,
    // Sessions are numbered from 1; the first stands for none.
    sessions: Vec<Session>,
    phases: Vec<Phase>,
    accessing: usize,
    pub revoked: u64,
    // By `Side` and cell, the sessions that read it.
    readers: [Vec<Vec<u32>>; 3],
    // The cells written since the readers were judged last.
    written: Vec<(Side, usize)>,
    // By right, its ongoing predicates where all are quick, and else nothing.
    quick: Vec<Vec<Quick>>,
    work: WorkList,
    // A deadline, its session, and which timed part of the right it is of.
    deadlines: BinaryHeap<Reverse<(i64, u32, u32)>>,
    groups: Groups<'a>,
}

pub fn put_number(out: &mut Vec<u8>, mut number: u64) {
    let mut digits = [0; 20];
    let mut start = digits.len();
    loop {
        start -= 1;
        digits[start] = b'0' + (number % 10) as u8;
        number /= 10;
        if number == 0 {
            break;
        }
    }
    out.extend_from_slice(&digits[start..]);
}

impl<'a> Engine<'a> {
    pub fn new(policy: &'a Policy, names: &'a Names, strategy: Strategy) -> Engine<'a> {
        let quick = |right: &Right| right.ongoing.iter().map(Quick::of).collect::<Option<Vec<_>>>().unwrap_or_default();
        Engine {
            policy,
            names,
            strategy,
            state: State::new(policy, names),
            sessions: vec![Session { right: 0, caller: 0, subject: 0, object: 0, start: 0 }],
            phases: vec![Phase::Ended],
            accessing: 0,
            revoked: 0,
            readers: [Vec::new(), Vec::new(), vec![Vec::new(); policy.attributes[2].len()]],
            written: Vec::new(),
            quick: policy.rights.iter().map(quick).collect(),
            work: WorkList::new(),
            deadlines: BinaryHeap::new(),
            groups: Groups::new(policy),
        }
    }

    /// Answers a command. The reply is put behind what `reply` holds.
    pub fn step(&mut self, caller: u8, command: &Command, reply: &mut Vec<u8>) -> Step {
        match self.own_actions(caller, command, reply) {
            Ok(Step::Changed) => {
                self.settle(reply);
                Step::Changed
            }
            Ok(step) => step,
            Err(refusal) => {
                reply.extend_from_slice(refusal.as_bytes());
                Step::Refused
            }
        }
    }

    // ---- who is to be rechecked

    fn write(&mut self, side: Side, cell: usize, value: Value) {
        let old = &mut self.state.cells[side as usize][cell];
        if *old == value {
            return;
        }
        *old = value;
        if !self.readers[side as usize][cell].is_empty() && !self.written.contains(&(side, cell)) {
            self.written.push((side, cell));
        }
        if self.strategy == Strategy::Grouped {
            self.groups.written(&self.state, side, cell);
        }
    }

    /// The label of the first false ongoing predicate.
    #[inline(always)]
    fn failing(&self, number: u32) -> Option<NameId> {
        let session = &self.sessions[number as usize];
        let ongoing = &self.policy.rights[session.right as usize].ongoing;
        ongoing.iter().find(|predicate| !self.state.holds(predicate, session)).map(|predicate| predicate.label)
    }

    /// Whether some ongoing predicate is false.
    #[inline(always)]
    fn fails(&self, number: u32) -> bool {
        let session = &self.sessions[number as usize];
        let quick = &self.quick[session.right as usize];
        if quick.is_empty() {
            return self.failing(number).is_some();
        }
        let cells = self.state.cells_of(session);
        !quick.iter().all(|predicate| predicate.holds(&self.state, cells))
    }

    /// Judges the readers of the cells written since, and keeps for later those that fail.
    fn judge_readers(&mut self) {
        while let Some((side, cell)) = self.written.pop() {
            let mut readers = std::mem::take(&mut self.readers[side as usize][cell]);
            let mut work = std::mem::take(&mut self.work);
            let mut kept = 0;
            for place in 0..readers.len() {
                let number = readers[place];
                if is_accessing(&self.phases, number) {
                    readers[kept] = number;
                    kept += 1;
                    if !work.has(number) && self.fails(number) {
                        work.put(number);
                    }
                }
            }
            readers.truncate(kept);
            self.work = work;
            self.readers[side as usize][cell] = readers;
        }
    }

    fn read_by(&mut self, number: u32, places: &[Place]) {
        let cells = self.state.cells_of(&self.sessions[number as usize]);
        for place in places {
            let readers = &mut self.readers[place.side as usize][self.state.cell(*place, cells)];
            if readers.len() == readers.capacity() && readers.len() >= SHORT_LIST {
                let phases = &self.phases;
                readers.retain(|other| is_accessing(phases, *other));
                if readers.len() * 4 > readers.capacity() * 3 {
                    readers.reserve(readers.len());
                }
            }
            readers.push(number);
        }
    }

    fn begin_access(&mut self, number: u32) {
        self.phases[number as usize] = Phase::Accessing;
        self.accessing += 1;
        self.sessions[number as usize].start = self.state.tick;
        let session = &self.sessions[number as usize];
        let right = &self.policy.rights[session.right as usize];
        for (part, timed) in right.timed.iter().enumerate() {
            match self.state.deadline(timed, session) {
                Some(deadline) if deadline >= self.state.tick => {
                    self.deadlines.push(Reverse((deadline, number, part as u32)));
                }
                _ => {}
            }
        }
        if self.strategy == Strategy::Grouped {
            self.groups.join(&self.state, session, number);
            if let Some(reads) = self.groups.timed_reads(session.right).map(<[Place]>::to_vec) {
                self.work.put(number);
                self.read_by(number, &reads);
            }
        } else if !right.ongoing.is_empty() {
            self.work.put(number);
            self.read_by(number, &right.reads);
        }
    }

    fn end_access(&mut self, number: u32, phase: Phase) {
        self.phases[number as usize] = phase;
        self.accessing -= 1;
        if self.strategy == Strategy::Grouped {
            self.groups.leave(&self.phases, &self.sessions[number as usize]);
        }
    }

    /// The least session that may fail.
    fn next_to_judge(&mut self) -> Option<u32> {
        match self.strategy {
            Strategy::Index => self.work.least(),
            Strategy::Grouped => [self.work.least(), self.groups.least_failing()].into_iter().flatten().min(),
            Strategy::Recheck => (1..self.sessions.len() as u32)
                .find(|number| is_accessing(&self.phases, *number) && self.failing(*number).is_some()),
        }
    }

    fn settle(&mut self, reply: &mut Vec<u8>) {
        loop {
            self.judge_readers();
            let Some(number) = self.next_to_judge() else { return };
            if self.work.has(number) {
                self.work.take(number);
            }
            if !is_accessing(&self.phases, number) {
                continue;
            }
            if let Some(label) = self.failing(number) {
                self.end_access(number, Phase::Revoked);
                self.revoked += 1;
                reply.extend_from_slice(b" revoked ");
                self.put_session_and_label(reply, number, label);
                self.update(number, When::AfterRevoke);
            }
        }
    }

    fn move_tick(&mut self, tick: i64) {
        self.state.tick = tick;
        while let Some(Reverse((deadline, number, part))) = self.deadlines.peek().copied() {
            if deadline >= tick {
                break;
            }
            self.deadlines.pop();
            if !is_accessing(&self.phases, number) {
                continue;
            }
            self.work.put(number);
            let session = &self.sessions[number as usize];
            let timed = &self.policy.rights[session.right as usize].timed[part as usize];
            match self.state.deadline(timed, session) {
                // An act moved it.
                Some(later) if later >= tick => self.deadlines.push(Reverse((later, number, part))),
                _ => {}
            }
        }
    }

    // ---- a command's own actions

    fn update(&mut self, number: u32, when: When) {
        let session = &self.sessions[number as usize];
        let (right, cells) = (session.right, self.state.cells_of(session));
        let policy = self.policy;
        for update in &policy.rights[right as usize].updates[when as usize] {
            let side = update.target.side;
            let attribute = &policy.attributes[side as usize][update.target.number as usize];
            let value = self.state.value(&update.value, attribute.least, attribute.most, cells);
            self.write(side, self.state.cell(update.target, cells), value);
        }
    }

    fn put_session_and_label(&self, reply: &mut Vec<u8>, number: u32, label: NameId) {
        put_number(reply, u64::from(number));
        reply.push(b' ');
        reply.extend_from_slice(self.names.get(label));
    }

    /// Decides a request: denied by the first false authorisation or condition, waiting for the first obligation.
    fn decide(&mut self, number: u32, reply: &mut Vec<u8>) {
        let session = &self.sessions[number as usize];
        let mut waits_for = None;
        for predicate in &self.policy.rights[session.right as usize].pre {
            let is_duty = predicate.sort == Sort::Obligation;
            if (is_duty && waits_for.is_some()) || self.state.holds(predicate, session) {
                continue;
            }
            if is_duty {
                waits_for = Some(predicate.label);
            } else {
                self.phases[number as usize] = Phase::Denied;
                reply.extend_from_slice(b"denied ");
                return self.put_session_and_label(reply, number, predicate.label);
            }
        }
        if let Some(label) = waits_for {
            reply.extend_from_slice(b"waiting ");
            return self.put_session_and_label(reply, number, label);
        }
        self.update(number, When::Before);
        self.begin_access(number);
        reply.extend_from_slice(b"permitted ");
        put_number(reply, u64::from(number));
    }

    fn own_actions(&mut self, caller: u8, command: &Command, reply: &mut Vec<u8>) -> Result<Step, Refusal> {
        let is_of_admin =
            matches!(command, Command::Add(..) | Command::Set { .. } | Command::Env { .. } | Command::Tick(_));
        if is_of_admin && caller != 0 {
            return Err("not admin");
        }
        match command {
            Command::Add(side, name) => self.add(*side, *name)?,
            Command::Set { side, entity, attribute, value } => self.set(*side, *entity, *attribute, value)?,
            Command::Env { variable, value } => self.set_variable(*variable, value)?,
            Command::Tick(tick) if *tick < self.state.tick => return Err("tick back"),
            Command::Tick(tick) => self.move_tick(*tick),
            Command::Act { subject, action, object } => self.act(*subject, *action, *object)?,
            Command::Try { subject, right, object } => {
                let number = self.new_session(caller, *subject, *right, *object)?;
                self.decide(number, reply);
                return Ok(Step::Changed);
            }
            Command::Again(number) => {
                self.own_session(caller, *number, Phase::Requesting)?;
                self.check_room()?;
                self.decide(*number, reply);
                return Ok(Step::Changed);
            }
            Command::Beat(number) => {
                self.own_session(caller, *number, Phase::Accessing)?;
                self.update(*number, When::During);
            }
            Command::End(number) => {
                self.own_session(caller, *number, Phase::Accessing)?;
                self.end_access(*number, Phase::Ended);
                self.update(*number, When::AfterEnd);
                reply.extend_from_slice(b"ended ");
                put_number(reply, u64::from(*number));
                return Ok(Step::Changed);
            }
            Command::Look(number) => return self.look(*number, reply),
            Command::Value { side, entity, attribute } => return self.value(*side, *entity, *attribute, reply),
        }
        reply.extend_from_slice(b"ok");
        Ok(Step::Changed)
    }

    fn entity(&self, side: Side, name: NameId) -> Result<u32, Refusal> {
        match self.state.numbers[side as usize][name as usize] {
            NOBODY if side == Side::Subject => Err("no subject"),
            NOBODY => Err("no object"),
            number => Ok(number),
        }
    }

    fn add(&mut self, side: Side, name: NameId) -> Result<(), Refusal> {
        if self.state.numbers[side as usize][name as usize] != NOBODY {
            return Err("already there");
        }
        let entities = &mut self.state.entities[side as usize];
        if entities.len() >= ENTITIES {
            return Err(if side == Side::Subject { "full subjects" } else { "full objects" });
        }
        self.state.numbers[side as usize][name as usize] = entities.len() as u32;
        entities.push(name);
        let cells = &mut self.state.cells[side as usize];
        cells.extend(self.policy.attributes[side as usize].iter().map(|attribute| attribute.start.clone()));
        self.readers[side as usize].resize(cells.len(), Vec::new());
        if self.strategy == Strategy::Grouped {
            self.groups.grow(side, cells.len());
        }
        Ok(())
    }

    fn set(&mut self, side: Side, entity: NameId, attribute: NameId, value: &Value) -> Result<(), Refusal> {
        let entity = self.entity(side, entity)?;
        let number = self.policy.attribute_numbers[side as usize].get(attribute).ok_or("no attribute")?;
        if !self.policy.attributes[side as usize][number as usize].admits(value) {
            return Err("bad value");
        }
        self.write(side, self.state.cell_of_entity(side, entity, number), value.clone());
        Ok(())
    }

    fn set_variable(&mut self, variable: NameId, value: &Value) -> Result<(), Refusal> {
        let number = self.policy.attribute_numbers[2].get(variable).ok_or("no variable")? as usize;
        if !self.policy.attributes[2][number].admits(value) {
            return Err("bad value");
        }
        self.write(Side::Environment, number, value.clone());
        Ok(())
    }

    fn act(&mut self, subject: NameId, action: NameId, object: NameId) -> Result<(), Refusal> {
        self.entity(Side::Subject, subject)?;
        self.entity(Side::Object, object)?;
        if !self.policy.has_action(action) {
            return Err("no act");
        }
        let act = (subject, action, object);
        if self.state.acts.len() >= ACTS && !self.state.acts.contains_key(&act) {
            return Err("full acts");
        }
        self.state.acts.insert(act, self.state.tick);
        Ok(())
    }

    fn check_room(&self) -> Result<(), Refusal> {
        if self.accessing >= ACCESSING {
            return Err("full accessing");
        }
        Ok(())
    }

    fn new_session(&mut self, caller: u8, subject: NameId, right: NameId, object: NameId) -> Result<u32, Refusal> {
        let right = self.policy.right_numbers.get(right).ok_or("no right")?;
        let subject = self.entity(Side::Subject, subject)?;
        let object = self.entity(Side::Object, object)?;
        if self.sessions.len() > SESSIONS {
            return Err("full sessions");
        }
        self.check_room()?;
        self.sessions.push(Session { right, caller, subject, object, start: 0 });
        self.phases.push(Phase::Requesting);
        Ok(self.sessions.len() as u32 - 1)
    }

    fn phase(&self, number: u32) -> Result<Phase, Refusal> {
        match self.phases.get(number as usize) {
            Some(phase) if number > 0 => Ok(*phase),
            _ => Err("no session"),
        }
    }

    fn own_session(&self, caller: u8, number: u32, wanted: Phase) -> Result<(), Refusal> {
        let phase = self.phase(number)?;
        if self.sessions[number as usize].caller != caller {
            return Err("not yours");
        }
        if phase != wanted {
            return Err(if wanted == Phase::Accessing { "not accessing" } else { "not requesting" });
        }
        Ok(())
    }

    // ---- what is only read

    fn look(&self, number: u32, reply: &mut Vec<u8>) -> Result<Step, Refusal> {
        let phase: &[u8] = match self.phase(number)? {
            Phase::Requesting => b" requesting",
            Phase::Denied => b" denied",
            Phase::Accessing => b" accessing",
            Phase::Revoked => b" revoked",
            Phase::Ended => b" ended",
        };
        reply.extend_from_slice(b"status ");
        put_number(reply, u64::from(number));
        reply.extend_from_slice(phase);
        Ok(Step::Read)
    }

    fn value(&self, side: Side, entity: NameId, attribute: NameId, reply: &mut Vec<u8>) -> Result<Step, Refusal> {
        let entity = self.entity(side, entity)?;
        let number = self.policy.attribute_numbers[side as usize].get(attribute).ok_or("no attribute")?;
        reply.extend_from_slice(b"value ");
        match &self.state.cells[side as usize][self.state.cell_of_entity(side, entity, number)] {
            Value::Int(int) => {
                if *int < 0 {
                    reply.push(b'-');
                }
                put_number(reply, int.unsigned_abs());
            }
            Value::Text(text) => self.put_text(reply, *text),
            Value::Set(members) => {
                reply.push(b'{');
                for (place, member) in members.iter().enumerate() {
                    if place > 0 {
                        reply.push(b',');
                    }
                    self.put_text(reply, *member);
                }
                reply.push(b'}');
            }
        }
        Ok(Step::Read)
    }

    fn put_text(&self, reply: &mut Vec<u8>, text: NameId) {
        reply.push(b'"');
        reply.extend_from_slice(self.names.get(text));
        reply.push(b'"');
    }
}
