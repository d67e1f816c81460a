//! A policy as it is asked: typed, with places for names, and each right's predicates with what they read.

use crate::names::{NameId, Names};
use std::fmt;
use std::rc::Rc;

/// The greatest integer; the least is its negative.
pub const GREATEST: i64 = 1_000_000_000_000_000;

/// How many members a set has at most.
pub const MEMBERS: usize = 64;

#[derive(Clone, PartialEq)]
pub enum Value {
    Int(i64),
    Text(NameId),
    /// Rising by their bytes.
    Set(Rc<Vec<NameId>>),
}

#[derive(Clone, Copy, PartialEq)]
pub enum Kind {
    Int,
    Text,
    Set,
}

impl Value {
    pub fn kind(&self) -> Kind {
        match self {
            Value::Int(_) => Kind::Int,
            Value::Text(_) => Kind::Text,
            Value::Set(_) => Kind::Set,
        }
    }
}

pub fn is_name(bytes: &[u8]) -> bool {
    bytes.len() <= 32
        && bytes.first().is_some_and(u8::is_ascii_lowercase)
        && bytes.iter().all(|byte| byte.is_ascii_lowercase() || byte.is_ascii_digit() || *byte == b'_')
}

/// Whose attribute it is. The environment's are its variables.
#[derive(Clone, Copy, PartialEq)]
pub enum Side {
    Subject,
    Object,
    Environment,
}

/// A declared attribute or variable. The range is that of an integer.
pub struct Attribute {
    pub name: NameId,
    pub kind: Kind,
    pub least: i64,
    pub most: i64,
    pub start: Value,
}

impl Attribute {
    pub fn admits(&self, value: &Value) -> bool {
        match value {
            Value::Int(number) => self.kind == Kind::Int && (self.least..=self.most).contains(number),
            other => self.kind == other.kind(),
        }
    }
}

/// An attribute or a variable, by its number on its side.
#[derive(Clone, Copy, PartialEq)]
pub struct Place {
    pub side: Side,
    pub number: u32,
}

/// A value that is written or read as it stands.
#[derive(Clone, Copy)]
pub enum Leaf<T> {
    Literal(T),
    Subject(u32),
    Object(u32),
    Variable(u32),
}

impl<T> Leaf<T> {
    pub fn at(place: Place) -> Leaf<T> {
        match place.side {
            Side::Subject => Leaf::Subject(place.number),
            Side::Object => Leaf::Object(place.number),
            Side::Environment => Leaf::Variable(place.number),
        }
    }
}

pub type TextExpression = Leaf<NameId>;

pub enum IntExpression {
    Leaf(Leaf<i64>),
    Sum(Box<IntExpression>, Box<IntExpression>),
    Difference(Box<IntExpression>, Box<IntExpression>),
    Product(Box<IntExpression>, Box<IntExpression>),
    Size(SetExpression),
}

pub enum SetExpression {
    Leaf(Leaf<Rc<Vec<NameId>>>),
    With(Box<SetExpression>, TextExpression),
    Without(Box<SetExpression>, TextExpression),
}

pub enum Expression {
    Int(IntExpression),
    Text(TextExpression),
    Set(SetExpression),
}

impl Expression {
    pub fn kind(&self) -> Kind {
        match self {
            Expression::Int(_) => Kind::Int,
            Expression::Text(_) => Kind::Text,
            Expression::Set(_) => Kind::Set,
        }
    }
}

#[derive(Clone, Copy, PartialEq)]
pub enum Comparison {
    Equal,
    Unequal,
    Less,
    AtMost,
    Greater,
    AtLeast,
}

pub enum Formula {
    And(Vec<Formula>),
    Or(Vec<Formula>),
    Not(Box<Formula>),
    Ints(Comparison, IntExpression, IntExpression),
    TextsEqual(bool, TextExpression, TextExpression),
    SetsEqual(bool, SetExpression, SetExpression),
    In(TextExpression, SetExpression),
    /// Ticks since the use began.
    Lasts(i64),
}

#[derive(Clone, Copy, PartialEq)]
pub enum DutyForm {
    Done,
    Within,
    Every,
}

/// An obligation: an act, by the session's subject and on its object where no other is named.
#[derive(Clone)]
pub struct Duty {
    pub form: DutyForm,
    pub ticks: i64,
    pub action: NameId,
    pub by: Option<NameId>,
    pub on: Option<NameId>,
}

#[derive(Clone, Copy, PartialEq)]
pub enum Sort {
    Authorisation,
    Obligation,
    Condition,
}

pub enum Test {
    Formula(Formula),
    Duty(Duty),
}

pub struct Predicate {
    pub label: NameId,
    pub sort: Sort,
    pub test: Test,
    pub reads: Vec<Place>,
    pub has_lasts: bool,
}

/// What makes a predicate false by the passing of time alone.
pub enum Timed {
    Lasts(i64),
    Duty(Duty),
}

#[derive(Clone, Copy, PartialEq)]
pub enum When {
    Before,
    During,
    AfterEnd,
    AfterRevoke,
}

pub struct Update {
    pub target: Place,
    pub value: Expression,
}

pub struct Right {
    pub name: NameId,
    pub pre: Vec<Predicate>,
    pub ongoing: Vec<Predicate>,
    /// By `When`.
    pub updates: [Vec<Update>; 4],
    /// What the ongoing predicates read, each place once.
    pub reads: Vec<Place>,
    pub timed: Vec<Timed>,
}

impl Right {
    /// The core models of usage control that the right makes, as `check` prints them (Park and Sandhu, TISSEC 7(1), 2004).
    pub fn core_models(&self) -> Vec<String> {
        const KINDS: [(Sort, char); 3] = [(Sort::Authorisation, 'A'), (Sort::Obligation, 'B'), (Sort::Condition, 'C')];
        let mut models = Vec::new();
        for (sort, letter) in KINDS {
            for (predicates, decision) in [(&self.pre, "pre"), (&self.ongoing, "on")] {
                if predicates.iter().any(|predicate| predicate.sort == sort) {
                    let indices = self.indices(sort, decision == "on");
                    models.extend(indices.iter().map(|index| format!("{decision}{letter}{index}")));
                }
            }
        }
        models
    }

    fn indices(&self, sort: Sort, is_ongoing: bool) -> Vec<u8> {
        let has = |when: When| sort != Sort::Condition && !self.updates[when as usize].is_empty();
        let mut indices = Vec::new();
        if has(When::Before) {
            indices.push(1);
        }
        if is_ongoing && has(When::During) {
            indices.push(2);
        }
        if has(When::AfterEnd) || has(When::AfterRevoke) {
            indices.push(3);
        }
        if indices.is_empty() {
            indices.push(0);
        }
        indices
    }
}

/// Numbers by name, for the names that were known when the policy had been read.
pub struct Numbers(Vec<u8>);

impl Numbers {
    const NONE: u8 = u8::MAX;

    pub fn of(names: impl Iterator<Item = NameId>, known: usize) -> Numbers {
        let mut numbers = vec![Numbers::NONE; known];
        for (number, name) in names.enumerate() {
            numbers[name as usize] = number as u8;
        }
        Numbers(numbers)
    }

    pub fn get(&self, name: NameId) -> Option<u32> {
        self.0.get(name as usize).filter(|number| **number != Numbers::NONE).map(|number| u32::from(*number))
    }
}

pub struct Policy {
    /// By `Side`.
    pub attributes: [Vec<Attribute>; 3],
    pub rights: Vec<Right>,
    pub attribute_numbers: [Numbers; 3],
    pub right_numbers: Numbers,
    is_action: Vec<bool>,
}

impl Policy {
    pub fn new(attributes: [Vec<Attribute>; 3], rights: Vec<Right>, names: &Names) -> Policy {
        let known = names.len();
        let mut is_action = vec![false; known];
        for predicate in rights.iter().flat_map(|right| right.pre.iter().chain(&right.ongoing)) {
            if let Test::Duty(duty) = &predicate.test {
                is_action[duty.action as usize] = true;
            }
        }
        let numbers = |attributes: &Vec<Attribute>| Numbers::of(attributes.iter().map(|it| it.name), known);
        let attribute_numbers = [numbers(&attributes[0]), numbers(&attributes[1]), numbers(&attributes[2])];
        let right_numbers = Numbers::of(rights.iter().map(|right| right.name), known);
        Policy { attributes, rights, attribute_numbers, right_numbers, is_action }
    }

    /// Whether some obligation asks for this action.
    pub fn has_action(&self, name: NameId) -> bool {
        self.is_action.get(name as usize).copied().unwrap_or(false)
    }
}

/// Why a text is no policy. Places are in bytes from 0, items are counted from 1 in written order.
pub enum PolicyFault {
    UnknownByte(usize),
    Unexpected(usize),
    TooLong(usize),
    TooDeep(usize),
    TooMany(usize),
    Twice(String, u32),
    NoName(String, u32),
    WrongReader(u32),
    WrongKind(u32),
    NotCore(String),
    TooManyCells(String, usize),
}

impl fmt::Display for PolicyFault {
    fn fmt(&self, out: &mut fmt::Formatter) -> fmt::Result {
        match self {
            PolicyFault::UnknownByte(place) => write!(out, "unknown byte at {place}"),
            PolicyFault::Unexpected(place) => write!(out, "unexpected at {place}"),
            PolicyFault::TooLong(place) => write!(out, "too long at {place}"),
            PolicyFault::TooDeep(place) => write!(out, "too deep at {place}"),
            PolicyFault::TooMany(place) => write!(out, "too many at {place}"),
            PolicyFault::Twice(name, item) => write!(out, "twice {name} at item {item}"),
            PolicyFault::NoName(name, item) => write!(out, "no name {name} at item {item}"),
            PolicyFault::WrongReader(item) => write!(out, "wrong reader at item {item}"),
            PolicyFault::WrongKind(item) => write!(out, "wrong kind at item {item}"),
            PolicyFault::NotCore(right) => write!(out, "not core {right}"),
            PolicyFault::TooManyCells(right, cells) => write!(out, "too many cells {right} {cells}"),
        }
    }
}
