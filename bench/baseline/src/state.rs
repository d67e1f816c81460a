//! What is there now, and what expressions and predicates mean on it.

use crate::names::{NameId, Names};
use crate::policy::{
    Comparison, Duty, DutyForm, Expression, Formula, IntExpression, Leaf, Place, Policy, Predicate, SetExpression,
    Side, Test, TextExpression, Timed, Value, GREATEST, MEMBERS,
};
use std::cmp::Ordering;
use std::collections::HashMap;
use std::hash::{BuildHasherDefault, Hasher};
use std::rc::Rc;

/// A hash that takes a few instructions, since the keys are small numbers that nobody chooses.
#[derive(Default)]
pub struct FastHasher(u64);

impl Hasher for FastHasher {
    fn finish(&self) -> u64 {
        self.0 ^ (self.0 >> 29)
    }

    fn write(&mut self, bytes: &[u8]) {
        bytes.iter().for_each(|byte| self.write_u64(u64::from(*byte)));
    }

    fn write_u32(&mut self, number: u32) {
        self.write_u64(u64::from(number));
    }

    fn write_u64(&mut self, number: u64) {
        self.0 = (self.0.rotate_left(5) ^ number).wrapping_mul(0x9E37_79B9_7F4A_7C15);
    }
}

pub type FastMap<K, V> = HashMap<K, V, BuildHasherDefault<FastHasher>>;

/// Entities have numbers from 0 on each side.
pub struct Session {
    pub right: u32,
    pub caller: u8,
    pub subject: u32,
    pub object: u32,
    /// The tick at which the use began.
    pub start: i64,
}

/// The first cells of a session's subject and object.
#[derive(Clone, Copy)]
pub struct Cells {
    pub subject: usize,
    pub object: usize,
}

pub const NOBODY: u32 = u32::MAX;

pub struct State<'a> {
    names: &'a Names,
    /// How many cells an entity has, by `Side`.
    widths: [usize; 2],
    /// By `Side`, each entity's attributes in declared order; the environment's are the variables.
    pub cells: [Vec<Value>; 3],
    /// The names of entities by number, and the numbers by name, by `Side`.
    pub entities: [Vec<NameId>; 2],
    pub numbers: [Vec<u32>; 2],
    /// When each act was done last.
    pub acts: FastMap<(NameId, NameId, NameId), i64>,
    pub tick: i64,
}

fn int(value: &Value) -> i64 {
    match value {
        Value::Int(number) => *number,
        _ => 0,
    }
}

impl<'a> State<'a> {
    pub fn new(policy: &Policy, names: &'a Names) -> State<'a> {
        let [subject, object, variables] = &policy.attributes;
        State {
            names,
            widths: [subject.len(), object.len()],
            cells: [Vec::new(), Vec::new(), variables.iter().map(|variable| variable.start.clone()).collect()],
            entities: Default::default(),
            numbers: [vec![NOBODY; names.len()], vec![NOBODY; names.len()]],
            acts: FastMap::default(),
            tick: 0,
        }
    }

    #[inline(always)]
    pub fn cells_of(&self, session: &Session) -> Cells {
        Cells { subject: session.subject as usize * self.widths[0], object: session.object as usize * self.widths[1] }
    }

    /// The cell of a place for these entities, on the place's side.
    #[inline(always)]
    pub fn cell(&self, place: Place, cells: Cells) -> usize {
        let number = place.number as usize;
        match place.side {
            Side::Subject => cells.subject + number,
            Side::Object => cells.object + number,
            Side::Environment => number,
        }
    }

    pub fn cell_of_entity(&self, side: Side, entity: u32, attribute: u32) -> usize {
        entity as usize * self.widths[side as usize] + attribute as usize
    }

    #[inline(always)]
    pub fn int_leaf(&self, leaf: &Leaf<i64>, cells: Cells) -> i64 {
        match leaf {
            Leaf::Literal(number) => *number,
            Leaf::Subject(number) => int(&self.cells[0][cells.subject + *number as usize]),
            Leaf::Object(number) => int(&self.cells[1][cells.object + *number as usize]),
            Leaf::Variable(number) => int(&self.cells[2][*number as usize]),
        }
    }

    #[inline(always)]
    fn int(&self, expression: &IntExpression, cells: Cells) -> i64 {
        match expression {
            IntExpression::Leaf(leaf) => self.int_leaf(leaf, cells),
            larger => self.large_int(larger, cells),
        }
    }

    // Apart, so that what has no tree is evaluated where it is asked.
    #[inline(never)]
    fn large_int(&self, expression: &IntExpression, cells: Cells) -> i64 {
        let clamped = |number: i64| number.clamp(-GREATEST, GREATEST);
        match expression {
            IntExpression::Leaf(leaf) => self.int_leaf(leaf, cells),
            IntExpression::Sum(left, right) => clamped(self.int(left, cells) + self.int(right, cells)),
            IntExpression::Difference(left, right) => clamped(self.int(left, cells) - self.int(right, cells)),
            IntExpression::Product(left, right) => {
                let product = i128::from(self.int(left, cells)) * i128::from(self.int(right, cells));
                product.clamp(-i128::from(GREATEST), i128::from(GREATEST)) as i64
            }
            IntExpression::Size(set) => self.set(set, cells).len() as i64,
        }
    }

    fn text(&self, expression: &TextExpression, cells: Cells) -> NameId {
        let value = match expression {
            Leaf::Literal(text) => return *text,
            Leaf::Subject(number) => &self.cells[0][cells.subject + *number as usize],
            Leaf::Object(number) => &self.cells[1][cells.object + *number as usize],
            Leaf::Variable(number) => &self.cells[2][*number as usize],
        };
        match value {
            Value::Text(text) => *text,
            _ => 0,
        }
    }

    fn set_leaf(&self, leaf: &Leaf<Rc<Vec<NameId>>>, cells: Cells) -> Rc<Vec<NameId>> {
        let value = match leaf {
            Leaf::Literal(set) => return set.clone(),
            Leaf::Subject(number) => &self.cells[0][cells.subject + *number as usize],
            Leaf::Object(number) => &self.cells[1][cells.object + *number as usize],
            Leaf::Variable(number) => &self.cells[2][*number as usize],
        };
        match value {
            Value::Set(set) => set.clone(),
            _ => Rc::default(),
        }
    }

    fn set(&self, expression: &SetExpression, cells: Cells) -> Rc<Vec<NameId>> {
        match expression {
            SetExpression::Leaf(leaf) => self.set_leaf(leaf, cells),
            SetExpression::With(set, text) => {
                let (mut set, text) = (self.set(set, cells), self.text(text, cells));
                let bytes = self.names.get(text);
                let place = set.binary_search_by(|member| self.names.get(*member).cmp(bytes));
                if let (Err(place), true) = (place, set.len() < MEMBERS) {
                    Rc::make_mut(&mut set).insert(place, text);
                }
                set
            }
            SetExpression::Without(set, text) => {
                let (mut set, text) = (self.set(set, cells), self.text(text, cells));
                if let Some(place) = set.iter().position(|member| *member == text) {
                    Rc::make_mut(&mut set).remove(place);
                }
                set
            }
        }
    }

    /// An expression's value, an integer within the range that it is written to.
    pub fn value(&self, expression: &Expression, least: i64, most: i64, cells: Cells) -> Value {
        match expression {
            Expression::Int(int) => Value::Int(self.int(int, cells).clamp(least, most)),
            Expression::Text(text) => Value::Text(self.text(text, cells)),
            Expression::Set(set) => Value::Set(self.set(set, cells)),
        }
    }

    /// Whether a formula holds for a use that began at `start`.
    #[inline(always)]
    pub fn formula(&self, formula: &Formula, cells: Cells, start: i64) -> bool {
        match formula {
            Formula::Ints(comparison, left, right) => {
                compare(*comparison, self.int(left, cells), self.int(right, cells))
            }
            larger => self.large_formula(larger, cells, start),
        }
    }

    #[inline(never)]
    fn large_formula(&self, formula: &Formula, cells: Cells, start: i64) -> bool {
        match formula {
            Formula::Ints(..) => self.formula(formula, cells, start),
            Formula::And(parts) => parts.iter().all(|part| self.formula(part, cells, start)),
            Formula::Or(parts) => parts.iter().any(|part| self.formula(part, cells, start)),
            Formula::Not(inner) => !self.formula(inner, cells, start),
            Formula::TextsEqual(wanted, left, right) => (self.text(left, cells) == self.text(right, cells)) == *wanted,
            Formula::SetsEqual(wanted, left, right) => (self.set(left, cells) == self.set(right, cells)) == *wanted,
            Formula::In(text, set) => self.set(set, cells).contains(&self.text(text, cells)),
            Formula::Lasts(ticks) => start + ticks >= self.tick,
        }
    }

    fn done_at(&self, duty: &Duty, session: &Session) -> Option<i64> {
        let subject = duty.by.unwrap_or(self.entities[0][session.subject as usize]);
        let object = duty.on.unwrap_or(self.entities[1][session.object as usize]);
        self.acts.get(&(subject, duty.action, object)).copied()
    }

    /// The last tick at which it holds if nothing else happens. None where a `within` has no act.
    pub fn deadline(&self, timed: &Timed, session: &Session) -> Option<i64> {
        match timed {
            Timed::Lasts(ticks) => Some(session.start + ticks),
            Timed::Duty(duty) if duty.form == DutyForm::Within => {
                self.done_at(duty, session).map(|done| done + duty.ticks)
            }
            Timed::Duty(duty) => {
                Some(self.done_at(duty, session).unwrap_or(session.start).max(session.start) + duty.ticks)
            }
        }
    }

    #[inline(never)]
    fn duty(&self, duty: &Duty, session: &Session) -> bool {
        let done = self.done_at(duty, session);
        match duty.form {
            DutyForm::Done => done.is_some(),
            DutyForm::Within => done.is_some_and(|done| done + duty.ticks >= self.tick),
            DutyForm::Every => done.unwrap_or(session.start).max(session.start) + duty.ticks >= self.tick,
        }
    }

    #[inline(always)]
    pub fn holds(&self, predicate: &Predicate, session: &Session) -> bool {
        match &predicate.test {
            Test::Formula(formula) => self.formula(formula, self.cells_of(session), session.start),
            Test::Duty(duty) => self.duty(duty, session),
        }
    }
}

fn compare(comparison: Comparison, left: i64, right: i64) -> bool {
    match comparison {
        Comparison::Equal => left == right,
        Comparison::Unequal => left != right,
        Comparison::Less => left < right,
        Comparison::AtMost => left <= right,
        Comparison::Greater => left > right,
        Comparison::AtLeast => left >= right,
    }
}

/// A comparison of two integers that are written or read as they stand, judged without a walk over a tree.
pub struct Quick {
    // Bits for less, equal and greater.
    allowed: u8,
    left: Leaf<i64>,
    right: Leaf<i64>,
}

impl Quick {
    pub fn of(predicate: &Predicate) -> Option<Quick> {
        match &predicate.test {
            Test::Formula(Formula::Ints(comparison, IntExpression::Leaf(left), IntExpression::Leaf(right))) => {
                let allowed = match comparison {
                    Comparison::Less => 0b001,
                    Comparison::Equal => 0b010,
                    Comparison::AtMost => 0b011,
                    Comparison::Greater => 0b100,
                    Comparison::Unequal => 0b101,
                    Comparison::AtLeast => 0b110,
                };
                Some(Quick { allowed, left: *left, right: *right })
            }
            _ => None,
        }
    }

    #[inline(always)]
    pub fn holds(&self, state: &State, cells: Cells) -> bool {
        let (left, right) = (state.int_leaf(&self.left, cells), state.int_leaf(&self.right, cells));
        let order = match left.cmp(&right) {
            Ordering::Less => 0b001,
            Ordering::Equal => 0b010,
            Ordering::Greater => 0b100,
        };
        self.allowed & order != 0
    }
}
