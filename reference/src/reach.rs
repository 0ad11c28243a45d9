//! Which parties an expression may name where it is reached (refusal 5).

use std::collections::BTreeSet;
use std::rc::Rc;

use crate::refusal::{Answer, Reason, Refusal};
use crate::syntax::{Expr, ExprForm, Guard, GuardForm, NodeId, Party, Process, ProcessForm};

/// From where a key node is reached.
#[derive(Clone, Copy)]
enum From {
    Process,
    Link,
}

impl From {
    fn allows(self, form: &ExprForm) -> bool {
        match (self, form) {
            (From::Process, ExprForm::Attribute(_, party) | ExprForm::Stigmergy(_, party)) => {
                *party == Party::Own
            }
            (From::Link, ExprForm::Attribute(_, party) | ExprForm::Stigmergy(_, party)) => {
                *party != Party::Own
            }
            (From::Link, ExprForm::Environment(_)) => false,
            _ => true,
        }
    }
}

fn expr(e: &Expr, from: From, wrong: &mut BTreeSet<NodeId>) {
    if !from.allows(&e.form) {
        wrong.insert(e.id);
    }
    if let ExprForm::Binary(_, a, b) = &e.form {
        expr(a, from, wrong);
        expr(b, from, wrong);
    }
}

fn guard(g: &Guard, from: From, wrong: &mut BTreeSet<NodeId>) {
    match &g.form {
        GuardForm::True => {}
        GuardForm::Compare(_, a, b) => {
            expr(a, from, wrong);
            expr(b, from, wrong);
        }
        GuardForm::Not(a) => guard(a, from, wrong),
        GuardForm::And(a, b) | GuardForm::Or(a, b) => {
            guard(a, from, wrong);
            guard(b, from, wrong);
        }
    }
}

/// Refusal 5, at the lowest key node that is wrong. Every process node counts,
/// whether or not a root leads to it.
pub fn check_reach(processes: &[Rc<Process>], links: &[Rc<Guard>]) -> Answer<()> {
    let mut wrong = BTreeSet::new();
    for process in processes {
        match &process.form {
            ProcessForm::Set(assignment) => expr(&assignment.value, From::Process, &mut wrong),
            ProcessForm::Guarded(g, _) => guard(g, From::Process, &mut wrong),
            _ => {}
        }
    }
    for link in links {
        guard(link, From::Link, &mut wrong);
    }
    match wrong.first() {
        Some(&place) => Err(Refusal::at(Reason::WrongParty, place)),
        None => Ok(()),
    }
}
