//! The syntax of a fleet as owned trees: processes, guards, expressions.
//! Every tree node keeps the number that the table gives it.

use std::cell::OnceCell;
use std::rc::Rc;

use crate::count::Count;

pub type NodeId = u16;
pub type Key = u16;

#[derive(Clone, Copy, Debug, PartialEq, Eq)]
pub enum Store {
    Attribute,
    Stigmergy,
    Environment,
}

#[derive(Clone, Copy, Debug, PartialEq, Eq)]
pub enum Party {
    Own,
    Sender,
    Receiver,
}

#[derive(Clone, Copy, Debug, PartialEq, Eq)]
pub enum Operator {
    Add,
    Subtract,
    Multiply,
    Divide,
    Remainder,
}

#[derive(Clone, Copy, Debug, PartialEq, Eq)]
pub enum Relation {
    Equal,
    Less,
    Greater,
}

#[derive(Debug)]
pub struct Expr {
    pub id: NodeId,
    pub form: ExprForm,
}

#[derive(Debug)]
pub enum ExprForm {
    Constant(i32),
    Attribute(Key, Party),
    Stigmergy(Key, Party),
    Environment(Key),
    Binary(Operator, Rc<Expr>, Rc<Expr>),
}

#[derive(Debug)]
pub struct Guard {
    pub id: NodeId,
    pub form: GuardForm,
}

#[derive(Debug)]
pub enum GuardForm {
    True,
    Compare(Relation, Rc<Expr>, Rc<Expr>),
    Not(Rc<Guard>),
    And(Rc<Guard>, Rc<Guard>),
    Or(Rc<Guard>, Rc<Guard>),
}

/// An action: set a key of a store to the value of an expression.
#[derive(Clone, Debug)]
pub struct Assignment {
    /// The process node that sets.
    pub node: NodeId,
    pub store: Store,
    pub key: Key,
    pub value: Rc<Expr>,
}

#[derive(Debug)]
pub struct Process {
    pub id: NodeId,
    pub form: ProcessForm,
    /// How many derivations the process has, once that is known.
    pub count: OnceCell<Count>,
}

#[derive(Debug)]
pub enum ProcessForm {
    Idle,
    Tick,
    Set(Assignment),
    Sequence(Rc<Process>, Rc<Process>),
    Choice(Rc<Process>, Rc<Process>),
    Guarded(Rc<Guard>, Rc<Process>),
    Parallel(Rc<Process>, Rc<Process>),
    Call(u16),
}
