//! Values of expressions, truth of guards, and the keys that they read.

use std::collections::{BTreeMap, BTreeSet};

use crate::state::Agent;
use crate::syntax::{Expr, ExprForm, Guard, GuardForm, Key, Operator, Party, Relation};

/// What an expression sees: an agent and the environment, or the two parties
/// of a link.
#[derive(Clone, Copy)]
pub enum Scene<'a> {
    Agent(&'a Agent, &'a BTreeMap<Key, i32>),
    Link {
        sender: &'a Agent,
        receiver: &'a Agent,
    },
}

impl<'a> Scene<'a> {
    fn agent(self, party: Party) -> Option<&'a Agent> {
        match (self, party) {
            (Scene::Agent(own, _), Party::Own) => Some(own),
            (Scene::Link { sender, .. }, Party::Sender) => Some(sender),
            (Scene::Link { receiver, .. }, Party::Receiver) => Some(receiver),
            _ => None,
        }
    }

    fn environment(self, key: Key) -> Option<i32> {
        match self {
            Scene::Agent(_, environment) => environment.get(&key).copied(),
            Scene::Link { .. } => None,
        }
    }
}

impl Operator {
    /// Reckoned with whole numbers; absent if the result does not fit.
    pub fn apply(self, a: i32, b: i32) -> Option<i32> {
        let (a, b) = (i64::from(a), i64::from(b));
        let whole = match self {
            Operator::Add => a + b,
            Operator::Subtract => a - b,
            Operator::Multiply => a * b,
            Operator::Divide => a.checked_div(b)?,
            Operator::Remainder => floored_remainder(a, b)?,
        };
        i32::try_from(whole).ok()
    }
}

/// a less b times floor(a / b), unless b is 0. Euclid's remainder is never
/// below 0; by a divisor below 0 the floored one never is above.
fn floored_remainder(a: i64, b: i64) -> Option<i64> {
    let above = a.checked_rem_euclid(b)?;
    Some(if b < 0 && above > 0 { above + b } else { above })
}

impl Expr {
    pub fn value(&self, scene: Scene) -> Option<i32> {
        match &self.form {
            ExprForm::Constant(value) => Some(*value),
            ExprForm::Attribute(key, party) => scene.agent(*party)?.attributes.get(key).copied(),
            ExprForm::Stigmergy(key, party) => scene
                .agent(*party)?
                .entries
                .get(key)
                .map(|entry| entry.value),
            ExprForm::Environment(key) => scene.environment(*key),
            ExprForm::Binary(operator, a, b) => operator.apply(a.value(scene)?, b.value(scene)?),
        }
    }

    /// Adds the stigmergy keys that occur in the expression.
    pub fn stigmergy_keys(&self, keys: &mut BTreeSet<Key>) {
        match &self.form {
            ExprForm::Stigmergy(key, _) => {
                keys.insert(*key);
            }
            ExprForm::Binary(_, a, b) => {
                a.stigmergy_keys(keys);
                b.stigmergy_keys(keys);
            }
            _ => {}
        }
    }
}

/// A guard is judged in two ways at once; an undefined one may hold (an or) or
/// not, but never does its negation.
#[derive(Clone, Copy, Debug, PartialEq, Eq)]
pub struct Judgement {
    pub defined: bool,
    pub holds: bool,
}

impl Guard {
    pub fn holds(&self, scene: Scene) -> bool {
        self.judge(scene).holds
    }

    pub fn judge(&self, scene: Scene) -> Judgement {
        match &self.form {
            GuardForm::True => Judgement {
                defined: true,
                holds: true,
            },
            GuardForm::Compare(relation, a, b) => match (a.value(scene), b.value(scene)) {
                (Some(a), Some(b)) => Judgement {
                    defined: true,
                    holds: match relation {
                        Relation::Equal => a == b,
                        Relation::Less => a < b,
                        Relation::Greater => a > b,
                    },
                },
                _ => Judgement {
                    defined: false,
                    holds: false,
                },
            },
            GuardForm::Not(b) => {
                let b = b.judge(scene);
                Judgement {
                    defined: b.defined,
                    holds: b.defined && !b.holds,
                }
            }
            GuardForm::And(a, b) => {
                let (a, b) = (a.judge(scene), b.judge(scene));
                Judgement {
                    defined: a.defined && b.defined,
                    holds: a.holds && b.holds,
                }
            }
            GuardForm::Or(a, b) => {
                let (a, b) = (a.judge(scene), b.judge(scene));
                Judgement {
                    defined: a.defined && b.defined,
                    holds: a.holds || b.holds,
                }
            }
        }
    }

    /// Adds the stigmergy keys that occur in the guard, in every part of it.
    pub fn stigmergy_keys(&self, keys: &mut BTreeSet<Key>) {
        match &self.form {
            GuardForm::True => {}
            GuardForm::Compare(_, a, b) => {
                a.stigmergy_keys(keys);
                b.stigmergy_keys(keys);
            }
            GuardForm::Not(b) => b.stigmergy_keys(keys),
            GuardForm::And(a, b) | GuardForm::Or(a, b) => {
                a.stigmergy_keys(keys);
                b.stigmergy_keys(keys);
            }
        }
    }
}
