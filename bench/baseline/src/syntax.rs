//! A policy's text read into a tree that still has names for places.

use crate::names::{NameId, Names};
use crate::policy::{Attribute, Comparison, Duty, DutyForm, Kind, PolicyFault, Side, Sort, Value, When, MEMBERS};
use crate::tokens::{Read, Token, Tokens};
use std::rc::Rc;

const POLICY_BYTES: usize = 65_536;
const ATTRIBUTES: usize = 16;
const VARIABLES: usize = 32;
const RIGHTS: usize = 64;
const PREDICATES: usize = 16;
const UPDATES: usize = 16;
/// How many parts a chain of one operator has at most.
const PARTS: usize = 32;

pub enum Expression {
    Literal(Value),
    Place(Side, NameId),
    Sum(Box<Expression>, Box<Expression>),
    Difference(Box<Expression>, Box<Expression>),
    Product(Box<Expression>, Box<Expression>),
    Size(Box<Expression>),
}

pub enum Formula {
    And(Vec<Formula>),
    Or(Vec<Formula>),
    Not(Box<Formula>),
    Compared(Comparison, Expression, Expression),
    In(Expression, Expression),
    Lasts(i64),
}

pub enum Test {
    Formula(Formula),
    Duty(Duty),
}

pub struct Predicate {
    pub is_ongoing: bool,
    pub label: NameId,
    pub sort: Sort,
    pub test: Test,
}

pub struct Update {
    pub when: When,
    pub side: Side,
    pub attribute: NameId,
    pub value: Expression,
}

pub struct Right {
    pub name: NameId,
    pub predicates: Vec<Predicate>,
    pub updates: Vec<Update>,
}

pub struct Tree {
    /// In written order.
    pub attributes: Vec<(Side, Attribute)>,
    pub variables: Vec<Attribute>,
    pub rights: Vec<Right>,
}

pub fn read(bytes: &[u8], names: &mut Names) -> Read<Tree> {
    if bytes.len() > POLICY_BYTES {
        return Err(PolicyFault::TooLong(POLICY_BYTES));
    }
    let mut tokens = Tokens::new(bytes, names)?;
    let mut tree = Tree { attributes: Vec::new(), variables: Vec::new(), rights: Vec::new() };
    while tokens.take_word("attr")? {
        let side = side_ahead(&tokens)?;
        if tree.attributes.iter().filter(|(other, _)| *other == side).count() == ATTRIBUTES {
            return tokens.too_many();
        }
        tokens.advance()?;
        tree.attributes.push((side, attribute(&mut tokens)?));
    }
    while tokens.is_word("env") {
        if tree.variables.len() == VARIABLES {
            return tokens.too_many();
        }
        tokens.advance()?;
        tree.variables.push(attribute(&mut tokens)?);
    }
    while tokens.is_word("right") {
        if tree.rights.len() == RIGHTS {
            return tokens.too_many();
        }
        tokens.advance()?;
        tree.rights.push(right(&mut tokens)?);
    }
    if tokens.token != Token::End {
        return tokens.unexpected();
    }
    Ok(tree)
}

fn side_ahead(tokens: &Tokens) -> Read<Side> {
    if tokens.is_word("s") {
        Ok(Side::Subject)
    } else if tokens.is_word("o") {
        Ok(Side::Object)
    } else {
        tokens.unexpected()
    }
}

fn attribute(tokens: &mut Tokens) -> Read<Attribute> {
    let name = tokens.take_name()?;
    tokens.take_sign(":")?;
    let kind = [Kind::Int, Kind::Text, Kind::Set][tokens.take_one_of(&["int", "text", "set"])?];
    let (mut least, mut most) = (0, 0);
    if kind == Kind::Int {
        least = tokens.take_int()?;
        tokens.take_sign("..")?;
        most = tokens.take_int()?;
    }
    tokens.take_sign("=")?;
    let start = literal(tokens)?;
    tokens.take_sign(";")?;
    Ok(Attribute { name, kind, least, most, start })
}

fn literal(tokens: &mut Tokens) -> Read<Value> {
    if let Some(text) = tokens.text() {
        let value = Value::Text(tokens.names.intern(text));
        tokens.advance()?;
        return Ok(value);
    }
    if !tokens.is_sign("{") {
        return tokens.take_int().map(Value::Int);
    }
    tokens.advance()?;
    let members = if tokens.is_sign("}") { Vec::new() } else { members(tokens)? };
    tokens.take_sign("}")?;
    Ok(Value::Set(Rc::new(members)))
}

fn members(tokens: &mut Tokens) -> Read<Vec<NameId>> {
    let mut members = Vec::new();
    let mut last = None;
    loop {
        let Some(text) = tokens.text() else { return tokens.unexpected() };
        if members.len() == MEMBERS {
            return tokens.too_many();
        }
        if last.is_some_and(|last| last >= text) {
            return tokens.unexpected();
        }
        last = Some(text);
        members.push(tokens.names.intern(text));
        tokens.advance()?;
        if !tokens.is_sign(",") {
            return Ok(members);
        }
        tokens.advance()?;
    }
}

fn factor(tokens: &mut Tokens) -> Read<Expression> {
    if tokens.is_sign("(") {
        tokens.open()?;
        let inner = expression(tokens)?;
        tokens.close(")")?;
        return Ok(inner);
    }
    if tokens.is_word("size") {
        tokens.open()?;
        tokens.take_sign("(")?;
        let inner = expression(tokens)?;
        tokens.close(")")?;
        return Ok(Expression::Size(Box::new(inner)));
    }
    if tokens.token != Token::Word {
        return literal(tokens).map(Expression::Literal);
    }
    let side = [Side::Subject, Side::Object, Side::Environment][tokens.take_one_of(&["s", "o", "env"])?];
    tokens.take_sign(".")?;
    Ok(Expression::Place(side, tokens.take_name()?))
}

fn term(tokens: &mut Tokens) -> Read<Expression> {
    let mut product = factor(tokens)?;
    let mut parts = 1;
    while tokens.is_sign("*") {
        if parts == PARTS {
            return tokens.too_many();
        }
        parts += 1;
        tokens.advance()?;
        product = Expression::Product(Box::new(product), Box::new(factor(tokens)?));
    }
    Ok(product)
}

fn expression(tokens: &mut Tokens) -> Read<Expression> {
    let mut sum = term(tokens)?;
    let mut parts = 1;
    while tokens.is_sign("+") || tokens.is_sign("-") {
        if parts == PARTS {
            return tokens.too_many();
        }
        parts += 1;
        let is_sum = tokens.is_sign("+");
        tokens.advance()?;
        let (left, right) = (Box::new(sum), Box::new(term(tokens)?));
        sum = if is_sum { Expression::Sum(left, right) } else { Expression::Difference(left, right) };
    }
    Ok(sum)
}

fn comparison(tokens: &Tokens) -> Option<Comparison> {
    Some(match tokens.token {
        Token::Sign("=") => Comparison::Equal,
        Token::Sign("!=") => Comparison::Unequal,
        Token::Sign("<") => Comparison::Less,
        Token::Sign("<=") => Comparison::AtMost,
        Token::Sign(">") => Comparison::Greater,
        Token::Sign(">=") => Comparison::AtLeast,
        _ => return None,
    })
}

fn unit(tokens: &mut Tokens) -> Read<Formula> {
    if tokens.is_word("not") {
        tokens.open()?;
        let inner = unit(tokens)?;
        tokens.leave();
        return Ok(Formula::Not(Box::new(inner)));
    }
    if tokens.is_sign("[") {
        tokens.open()?;
        let inner = formula(tokens)?;
        tokens.close("]")?;
        return Ok(inner);
    }
    if tokens.take_word("lasts")? {
        return tokens.take_number().map(Formula::Lasts);
    }
    let left = expression(tokens)?;
    if let Some(comparison) = comparison(tokens) {
        tokens.advance()?;
        return Ok(Formula::Compared(comparison, left, expression(tokens)?));
    }
    if !tokens.take_word("in")? {
        return tokens.unexpected();
    }
    Ok(Formula::In(left, expression(tokens)?))
}

type Rule<T> = fn(&mut Tokens) -> Read<T>;

/// Formulas with a word between them; one alone stands for itself.
fn chain(tokens: &mut Tokens, word: &str, part: Rule<Formula>, joined: fn(Vec<Formula>) -> Formula) -> Read<Formula> {
    let first = part(tokens)?;
    if !tokens.is_word(word) {
        return Ok(first);
    }
    let mut parts = vec![first];
    while tokens.is_word(word) {
        if parts.len() == PARTS {
            return tokens.too_many();
        }
        tokens.advance()?;
        parts.push(part(tokens)?);
    }
    Ok(joined(parts))
}

fn conjunction(tokens: &mut Tokens) -> Read<Formula> {
    chain(tokens, "and", unit, Formula::And)
}

fn formula(tokens: &mut Tokens) -> Read<Formula> {
    chain(tokens, "or", conjunction, Formula::Or)
}

fn duty(tokens: &mut Tokens) -> Read<Duty> {
    let form = [DutyForm::Done, DutyForm::Within, DutyForm::Every][tokens.take_one_of(&["done", "within", "every"])?];
    let ticks = if form == DutyForm::Done { 0 } else { tokens.take_number()? };
    let action = tokens.take_name()?;
    let by = if tokens.take_word("by")? { Some(tokens.take_name_text()?) } else { None };
    let on = if tokens.take_word("on")? { Some(tokens.take_name_text()?) } else { None };
    Ok(Duty { form, ticks, action, by, on })
}

fn predicate(tokens: &mut Tokens, is_ongoing: bool) -> Read<Predicate> {
    tokens.advance()?;
    let sort = [Sort::Authorisation, Sort::Obligation, Sort::Condition][tokens.take_one_of(&["a", "b", "c"])?];
    let label = tokens.take_name()?;
    tokens.take_sign(":")?;
    let test = if sort == Sort::Obligation { Test::Duty(duty(tokens)?) } else { Test::Formula(formula(tokens)?) };
    tokens.take_sign(";")?;
    Ok(Predicate { is_ongoing, label, sort, test })
}

fn update(tokens: &mut Tokens, when: When) -> Read<Update> {
    tokens.advance()?;
    let side = side_ahead(tokens)?;
    tokens.advance()?;
    tokens.take_sign(".")?;
    let attribute = tokens.take_name()?;
    tokens.take_sign("=")?;
    let value = expression(tokens)?;
    tokens.take_sign(";")?;
    Ok(Update { when, side, attribute, value })
}

fn phase_ahead(tokens: &Tokens) -> Option<When> {
    const PHASES: [(&str, When); 4] = [
        ("before", When::Before),
        ("during", When::During),
        ("after_end", When::AfterEnd),
        ("after_revoke", When::AfterRevoke),
    ];
    PHASES.iter().find(|(word, _)| tokens.is_word(word)).map(|(_, when)| *when)
}

fn right(tokens: &mut Tokens) -> Read<Right> {
    let name = tokens.take_name()?;
    tokens.take_sign("{")?;
    let mut predicates: Vec<Predicate> = Vec::new();
    while tokens.is_word("pre") || tokens.is_word("on") {
        let is_ongoing = tokens.is_word("on");
        if predicates.iter().filter(|other| other.is_ongoing == is_ongoing).count() == PREDICATES {
            return tokens.too_many();
        }
        predicates.push(predicate(tokens, is_ongoing)?);
    }
    let mut updates: Vec<Update> = Vec::new();
    while let Some(when) = phase_ahead(tokens) {
        if updates.iter().filter(|other| other.when == when).count() == UPDATES {
            return tokens.too_many();
        }
        updates.push(update(tokens, when)?);
    }
    tokens.take_sign("}")?;
    Ok(Right { name, predicates, updates })
}
