//! Whether a policy is well typed; if so, the policy as it is asked.

use crate::names::{NameId, Names};
use crate::policy::{
    Attribute, Comparison, Duty, DutyForm, Expression, Formula, IntExpression, Kind, Leaf, Place, Policy, PolicyFault,
    Predicate, Right, SetExpression, Side, Sort, Test, TextExpression, Timed, Update, Value, When,
};
use crate::syntax::{self, Tree};

/// How many different places a right's ongoing predicates may read.
const PLACES: usize = 32;

type Checked<T> = Result<T, PolicyFault>;

struct Typing<'a> {
    /// By `Side`.
    attributes: [Vec<Attribute>; 3],
    names: &'a Names,
    item: u32,
    no_right: NameId,
}

pub fn check(tree: Tree, names: &mut Names) -> Checked<Policy> {
    // No predicate may have the label that a reply gives where there is no right.
    let no_right = names.intern(b"no_right");
    let mut typing = Typing { attributes: Default::default(), names, item: 0, no_right };
    let variables = tree.variables.into_iter().map(|it| (Side::Environment, it));
    for (side, attribute) in tree.attributes.into_iter().chain(variables) {
        typing.declare(side, attribute)?;
    }
    let mut rights: Vec<Right> = Vec::new();
    for right in &tree.rights {
        typing.item += 1;
        if rights.iter().any(|other| other.name == right.name) {
            return Err(typing.twice(right.name));
        }
        rights.push(typing.right(right)?);
    }
    Ok(Policy::new(typing.attributes, rights, names))
}

/// What a formula reads, and whether time alone can turn it.
#[derive(Default)]
struct Reads {
    named: Vec<(Side, NameId)>,
    lasts: Vec<i64>,
}

impl Reads {
    fn of_expression(&mut self, expression: &syntax::Expression) {
        match expression {
            syntax::Expression::Literal(_) => {}
            syntax::Expression::Place(side, name) => self.named.push((*side, *name)),
            syntax::Expression::Sum(left, right)
            | syntax::Expression::Difference(left, right)
            | syntax::Expression::Product(left, right) => {
                self.of_expression(left);
                self.of_expression(right);
            }
            syntax::Expression::Size(inner) => self.of_expression(inner),
        }
    }

    fn of_formula(&mut self, formula: &syntax::Formula) {
        match formula {
            syntax::Formula::And(parts) | syntax::Formula::Or(parts) => {
                parts.iter().for_each(|part| self.of_formula(part));
            }
            syntax::Formula::Not(inner) => self.of_formula(inner),
            syntax::Formula::Compared(_, left, right) | syntax::Formula::In(left, right) => {
                self.of_expression(left);
                self.of_expression(right);
            }
            syntax::Formula::Lasts(ticks) => self.lasts.push(*ticks),
        }
    }
}

fn put_once(places: &mut Vec<Place>, place: Place) {
    if !places.contains(&place) {
        places.push(place);
    }
}

impl Typing<'_> {
    fn written(&self, name: NameId) -> String {
        String::from_utf8_lossy(self.names.get(name)).into_owned()
    }

    fn twice(&self, name: NameId) -> PolicyFault {
        PolicyFault::Twice(self.written(name), self.item)
    }

    fn wrong_kind(&self) -> PolicyFault {
        PolicyFault::WrongKind(self.item)
    }

    fn declare(&mut self, side: Side, attribute: Attribute) -> Checked<()> {
        self.item += 1;
        if self.find(side, attribute.name).is_some() {
            return Err(self.twice(attribute.name));
        }
        let is_empty = attribute.kind == Kind::Int && attribute.least > attribute.most;
        if is_empty || !attribute.admits(&attribute.start) {
            return Err(self.wrong_kind());
        }
        self.attributes[side as usize].push(attribute);
        Ok(())
    }

    fn find(&self, side: Side, name: NameId) -> Option<Place> {
        let number = self.attributes[side as usize].iter().position(|attribute| attribute.name == name)?;
        Some(Place { side, number: number as u32 })
    }

    fn places(&self, named: &[(Side, NameId)]) -> Checked<Vec<Place>> {
        let mut places = Vec::new();
        for (side, name) in named {
            match self.find(*side, *name) {
                Some(place) => put_once(&mut places, place),
                None => return Err(PolicyFault::NoName(self.written(*name), self.item)),
            }
        }
        Ok(places)
    }

    fn expression(&self, expression: &syntax::Expression, in_update: bool) -> Option<Expression> {
        use syntax::Expression as Tree;
        match expression {
            Tree::Literal(Value::Int(number)) => Some(Expression::Int(IntExpression::Leaf(Leaf::Literal(*number)))),
            Tree::Literal(Value::Text(text)) => Some(Expression::Text(Leaf::Literal(*text))),
            Tree::Literal(Value::Set(set)) => Some(Expression::Set(SetExpression::Leaf(Leaf::Literal(set.clone())))),
            Tree::Place(side, name) => {
                let place = self.find(*side, *name)?;
                Some(match self.attributes[*side as usize][place.number as usize].kind {
                    Kind::Int => Expression::Int(IntExpression::Leaf(Leaf::at(place))),
                    Kind::Text => Expression::Text(Leaf::at(place)),
                    Kind::Set => Expression::Set(SetExpression::Leaf(Leaf::at(place))),
                })
            }
            Tree::Sum(left, right) => self.joined(left, right, in_update, IntExpression::Sum, SetExpression::With),
            Tree::Difference(left, right) => {
                self.joined(left, right, in_update, IntExpression::Difference, SetExpression::Without)
            }
            Tree::Product(left, right) => {
                let (left, right) = (self.int(left, in_update)?, self.int(right, in_update)?);
                Some(Expression::Int(IntExpression::Product(Box::new(left), Box::new(right))))
            }
            Tree::Size(inner) => Some(Expression::Int(IntExpression::Size(self.set(inner, in_update)?))),
        }
    }

    fn int(&self, expression: &syntax::Expression, in_update: bool) -> Option<IntExpression> {
        match self.expression(expression, in_update)? {
            Expression::Int(int) => Some(int),
            _ => None,
        }
    }

    fn text(&self, expression: &syntax::Expression, in_update: bool) -> Option<TextExpression> {
        match self.expression(expression, in_update)? {
            Expression::Text(text) => Some(text),
            _ => None,
        }
    }

    fn set(&self, expression: &syntax::Expression, in_update: bool) -> Option<SetExpression> {
        match self.expression(expression, in_update)? {
            Expression::Set(set) => Some(set),
            _ => None,
        }
    }

    /// Two integers, or a set with or without a text, which updates alone may write.
    fn joined(
        &self,
        left: &syntax::Expression,
        right: &syntax::Expression,
        in_update: bool,
        ints: fn(Box<IntExpression>, Box<IntExpression>) -> IntExpression,
        sets: fn(Box<SetExpression>, TextExpression) -> SetExpression,
    ) -> Option<Expression> {
        match (self.expression(left, in_update)?, self.expression(right, in_update)?) {
            (Expression::Int(left), Expression::Int(right)) => {
                Some(Expression::Int(ints(Box::new(left), Box::new(right))))
            }
            (Expression::Set(set), Expression::Text(text)) if in_update => {
                Some(Expression::Set(sets(Box::new(set), text)))
            }
            _ => None,
        }
    }

    fn formula(&self, formula: &syntax::Formula) -> Option<Formula> {
        let all = |parts: &[syntax::Formula]| parts.iter().map(|part| self.formula(part)).collect::<Option<Vec<_>>>();
        Some(match formula {
            syntax::Formula::And(parts) => Formula::And(all(parts)?),
            syntax::Formula::Or(parts) => Formula::Or(all(parts)?),
            syntax::Formula::Not(inner) => Formula::Not(Box::new(self.formula(inner)?)),
            syntax::Formula::Lasts(ticks) => Formula::Lasts(*ticks),
            syntax::Formula::In(left, right) => Formula::In(self.text(left, false)?, self.set(right, false)?),
            syntax::Formula::Compared(comparison, left, right) => {
                return self.compared(*comparison, self.expression(left, false)?, self.expression(right, false)?);
            }
        })
    }

    fn compared(&self, comparison: Comparison, left: Expression, right: Expression) -> Option<Formula> {
        let is_equal = comparison == Comparison::Equal;
        match (left, right) {
            (Expression::Int(left), Expression::Int(right)) => Some(Formula::Ints(comparison, left, right)),
            _ if !is_equal && comparison != Comparison::Unequal => None,
            (Expression::Text(left), Expression::Text(right)) => Some(Formula::TextsEqual(is_equal, left, right)),
            (Expression::Set(left), Expression::Set(right)) => Some(Formula::SetsEqual(is_equal, left, right)),
            _ => None,
        }
    }

    fn right(&mut self, written: &syntax::Right) -> Checked<Right> {
        let mut right = Right {
            name: written.name,
            pre: Vec::new(),
            ongoing: Vec::new(),
            updates: Default::default(),
            reads: Vec::new(),
            timed: Vec::new(),
        };
        for (number, predicate) in written.predicates.iter().enumerate() {
            self.item += 1;
            let is_twice = written.predicates[..number].iter().any(|other| other.label == predicate.label);
            if is_twice || predicate.label == self.no_right {
                return Err(self.twice(predicate.label));
            }
            self.add_predicate(&mut right, predicate)?;
        }
        for update in &written.updates {
            self.item += 1;
            right.updates[update.when as usize].push(self.update(update)?);
        }
        self.check_core(&right)?;
        if right.reads.len() > PLACES {
            return Err(PolicyFault::TooManyCells(self.written(right.name), right.reads.len()));
        }
        Ok(right)
    }

    fn check_core(&self, right: &Right) -> Checked<()> {
        let decides = |predicate: &Predicate| predicate.sort != Sort::Condition;
        let has_ongoing = right.ongoing.iter().any(decides);
        let has_any = has_ongoing || right.pre.iter().any(decides);
        let has_updates = right.updates.iter().any(|updates| !updates.is_empty());
        if (has_updates && !has_any) || (!right.updates[When::During as usize].is_empty() && !has_ongoing) {
            return Err(PolicyFault::NotCore(self.written(right.name)));
        }
        Ok(())
    }

    fn add_predicate(&self, right: &mut Right, written: &syntax::Predicate) -> Checked<()> {
        let mut reads = Reads::default();
        let test = match &written.test {
            syntax::Test::Formula(formula) => {
                reads.of_formula(formula);
                self.formula_test(written, formula, &reads)?
            }
            syntax::Test::Duty(duty) => self.duty_test(written, duty)?,
        };
        let places = self.places(&reads.named)?;
        let has_lasts = !reads.lasts.is_empty();
        if written.is_ongoing {
            places.iter().for_each(|place| put_once(&mut right.reads, *place));
            right.timed.extend(reads.lasts.into_iter().map(Timed::Lasts));
            if let Test::Duty(duty) = &test {
                if duty.form != DutyForm::Done {
                    right.timed.push(Timed::Duty(duty.clone()));
                }
            }
        }
        let predicates = if written.is_ongoing { &mut right.ongoing } else { &mut right.pre };
        predicates.push(Predicate { label: written.label, sort: written.sort, test, reads: places, has_lasts });
        Ok(())
    }

    fn formula_test(&self, written: &syntax::Predicate, formula: &syntax::Formula, reads: &Reads) -> Checked<Test> {
        self.places(&reads.named)?;
        let reads_variable = reads.named.iter().any(|(side, _)| *side == Side::Environment);
        let reads_attribute = reads.named.iter().any(|(side, _)| *side != Side::Environment);
        let has_lasts = !reads.lasts.is_empty();
        let is_wrong = match written.sort {
            Sort::Authorisation => reads_variable || has_lasts,
            _ => reads_attribute || (has_lasts && !written.is_ongoing),
        };
        if is_wrong {
            return Err(PolicyFault::WrongReader(self.item));
        }
        self.formula(formula).map(Test::Formula).ok_or(self.wrong_kind())
    }

    fn duty_test(&self, written: &syntax::Predicate, duty: &Duty) -> Checked<Test> {
        if duty.form == DutyForm::Every && !written.is_ongoing {
            return Err(PolicyFault::WrongReader(self.item));
        }
        Ok(Test::Duty(duty.clone()))
    }

    fn update(&self, written: &syntax::Update) -> Checked<Update> {
        let mut reads = Reads { named: vec![(written.side, written.attribute)], ..Reads::default() };
        reads.of_expression(&written.value);
        let target = self.places(&reads.named)?[0];
        if reads.named.iter().any(|(side, _)| *side == Side::Environment) {
            return Err(PolicyFault::WrongReader(self.item));
        }
        let kind = self.attributes[target.side as usize][target.number as usize].kind;
        match self.expression(&written.value, true) {
            Some(value) if value.kind() == kind => Ok(Update { target, value }),
            _ => Err(self.wrong_kind()),
        }
    }
}
