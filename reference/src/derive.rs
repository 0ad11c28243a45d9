//! Derivations of a residual: the list as the paper gives it, and the choice
//! of one entry without making the list.

use std::collections::{BTreeMap, BTreeSet, HashSet};
use std::rc::Rc;

use crate::count::{count, Count};
use crate::syntax::{Assignment, Guard, NodeId, ProcessForm};
use crate::table::Fleet;
use crate::term::Term;

/// One thing that a process can do. Guards are a set, by node.
#[derive(Clone, Debug)]
pub struct Derivation {
    /// None for a tick.
    pub action: Option<Assignment>,
    pub guards: BTreeMap<NodeId, Rc<Guard>>,
    /// The process nodes that it goes through.
    pub nodes: BTreeSet<NodeId>,
    pub residual: Term,
}

/// A term by its outermost form; a process node opens into terms.
enum View {
    Idle,
    Tick,
    Action(Assignment),
    Sequence(Term, Term),
    Parallel(Term, Term),
    Choice(Term, Term),
    Guarded(Rc<Guard>, Term),
    Body(Term),
}

fn view(term: &Term, fleet: &Fleet) -> View {
    let node = |p: &Rc<_>| Term::Process(Rc::clone(p));
    match term {
        Term::Idle => View::Idle,
        Term::Tick => View::Tick,
        Term::Sequence(p, q) => View::Sequence(Term::clone(p), Term::clone(q)),
        Term::Parallel(p, q) => View::Parallel(Term::clone(p), Term::clone(q)),
        Term::Process(process) => match &process.form {
            ProcessForm::Idle => View::Idle,
            ProcessForm::Tick => View::Tick,
            ProcessForm::Set(assignment) => View::Action(assignment.clone()),
            ProcessForm::Sequence(p, q) => View::Sequence(node(p), node(q)),
            ProcessForm::Parallel(p, q) => View::Parallel(node(p), node(q)),
            ProcessForm::Choice(p, q) => View::Choice(node(p), node(q)),
            ProcessForm::Guarded(g, p) => View::Guarded(Rc::clone(g), node(p)),
            ProcessForm::Call(d) => View::Body(node(&fleet.definitions[usize::from(*d)])),
        },
    }
}

/// How many derivations a term has; held at the limit as for process nodes.
pub fn count_term(term: &Term, fleet: &Fleet) -> Count {
    match term {
        Term::Idle => Count::NONE,
        Term::Tick => Count::TICK,
        Term::Sequence(p, q) => Count::sequence(count_term(p, fleet), count_term(q, fleet)),
        Term::Parallel(p, q) => Count::parallel(count_term(p, fleet), count_term(q, fleet)),
        Term::Process(process) => count(process, &fleet.definitions),
    }
}

/// Whether any subterm, reached by a derivation or not, is over the limit.
pub fn any_over(term: &Term, fleet: &Fleet) -> bool {
    let below = match term {
        Term::Sequence(p, q) | Term::Parallel(p, q) => any_over(p, fleet) || any_over(q, fleet),
        _ => false,
    };
    below || count_term(term, fleet).is_over()
}

/// The list of all derivations, in order. It may be very long: for small terms.
pub fn list(term: &Term, fleet: &Fleet) -> Vec<Derivation> {
    let alone = |action, residual| Derivation {
        action,
        guards: BTreeMap::new(),
        nodes: BTreeSet::new(),
        residual,
    };
    let mut all = match view(term, fleet) {
        View::Idle => Vec::new(),
        View::Tick => vec![alone(None, Term::Idle)],
        View::Action(assignment) => vec![alone(Some(assignment), Term::Tick)],
        View::Choice(p, q) => {
            let mut all = list(&p, fleet);
            all.extend(list(&q, fleet));
            all
        }
        View::Guarded(g, p) => {
            let mut all = list(&p, fleet);
            for derivation in &mut all {
                derivation.guards.insert(g.id, Rc::clone(&g));
            }
            all
        }
        View::Body(p) => list(&p, fleet),
        View::Sequence(p, q) => {
            let left = list(&p, fleet);
            let mut all = Vec::new();
            for mut action in actions(&left) {
                action.residual = Term::sequence(action.residual, q.clone());
                all.push(action);
            }
            // Without a tick the right is not exposed, and may be recursive.
            if left.iter().any(|d| d.action.is_none()) {
                all.extend(joined(&left, &list(&q, fleet)));
            }
            all
        }
        View::Parallel(p, q) => {
            let (left, right) = (list(&p, fleet), list(&q, fleet));
            let mut all = Vec::new();
            for mut action in actions(&left) {
                action.residual = Term::parallel(action.residual, q.clone());
                all.push(action);
            }
            for mut action in actions(&right) {
                action.residual = Term::parallel(p.clone(), action.residual);
                all.push(action);
            }
            all.extend(joined(&left, &right));
            all.extend(joined(&right, &left));
            all
        }
    };
    if let Term::Process(process) = term {
        for derivation in &mut all {
            derivation.nodes.insert(process.id);
        }
    }
    all
}

fn actions(all: &[Derivation]) -> Vec<Derivation> {
    all.iter().filter(|d| d.action.is_some()).cloned().collect()
}

/// For each tick of the first list each derivation of the second.
fn joined(first: &[Derivation], second: &[Derivation]) -> Vec<Derivation> {
    let mut all = Vec::new();
    for tick in first.iter().filter(|d| d.action.is_none()) {
        for derivation in second {
            let mut derivation = derivation.clone();
            derivation.guards.extend(tick.guards.clone());
            derivation.nodes.extend(&tick.nodes);
            all.push(derivation);
        }
    }
    all
}

/// Derivation number `choice`, for a term with no subterm over the limit.
pub fn select(term: &Term, choice: u32, fleet: &Fleet) -> Option<Derivation> {
    if choice >= count_term(term, fleet).total() {
        return None;
    }
    let mut selection = Selection {
        fleet,
        guards: BTreeMap::new(),
        nodes: BTreeSet::new(),
        walked: HashSet::new(),
    };
    let (action, residual) = selection.pick(term, Part::All, choice);
    Some(Derivation {
        action,
        guards: selection.guards,
        nodes: selection.nodes,
        residual,
    })
}

/// A part of a list of derivations.
#[derive(Clone, Copy, PartialEq, Eq)]
enum Part {
    All,
    Actions,
    Ticks,
}

impl Part {
    fn of(self, count: Count) -> u32 {
        match self {
            Part::All => count.total(),
            Part::Actions => count.actions,
            Part::Ticks => count.ticks,
        }
    }
}

struct Selection<'a> {
    fleet: &'a Fleet,
    guards: BTreeMap<NodeId, Rc<Guard>>,
    nodes: BTreeSet<NodeId>,
    /// Ticks whose guards are collected: node, and number among its ticks.
    /// Bodies are shared, so the same tick may come up very often.
    walked: HashSet<(NodeId, u32)>,
}

impl Selection<'_> {
    fn count(&self, term: &Term) -> Count {
        count_term(term, self.fleet)
    }

    fn collect(&mut self, g: Rc<Guard>) {
        self.guards.insert(g.id, g);
    }

    fn pass(&mut self, term: &Term) {
        if let Term::Process(process) = term {
            self.nodes.insert(process.id);
        }
    }

    /// Entry `index` of a part of the term's list, which has that many.
    fn pick(&mut self, term: &Term, part: Part, index: u32) -> (Option<Assignment>, Term) {
        self.pass(term);
        match view(term, self.fleet) {
            View::Idle => unreachable!("idle has no derivation"),
            View::Tick => (None, Term::Idle),
            View::Action(assignment) => (Some(assignment), Term::Tick),
            View::Choice(p, q) => {
                let first = part.of(self.count(&p));
                if index < first {
                    self.pick(&p, part, index)
                } else {
                    self.pick(&q, part, index - first)
                }
            }
            View::Guarded(g, p) => {
                self.collect(g);
                self.pick(&p, part, index)
            }
            View::Body(p) => self.pick(&p, part, index),
            View::Sequence(p, q) => {
                let mut index = index;
                if part != Part::Ticks {
                    let first = self.count(&p).actions;
                    if index < first {
                        let (action, rest) = self.pick(&p, Part::Actions, index);
                        return (action, Term::sequence(rest, q));
                    }
                    index -= first;
                }
                self.pick_joined(&p, &q, part, index)
            }
            View::Parallel(p, q) => {
                let (left, right) = (self.count(&p), self.count(&q));
                let mut index = index;
                if part != Part::Ticks {
                    if index < left.actions {
                        let (action, rest) = self.pick(&p, Part::Actions, index);
                        return (action, Term::parallel(rest, q));
                    }
                    index -= left.actions;
                    if index < right.actions {
                        let (action, rest) = self.pick(&q, Part::Actions, index);
                        return (action, Term::parallel(p, rest));
                    }
                    index -= right.actions;
                }
                let ticks_of_left = left.ticks * part.of(right);
                if index < ticks_of_left {
                    self.pick_joined(&p, &q, part, index)
                } else {
                    self.pick_joined(&q, &p, part, index - ticks_of_left)
                }
            }
        }
    }

    /// Entry `index` of: for each tick of `first` each derivation of `second`.
    fn pick_joined(
        &mut self,
        first: &Term,
        second: &Term,
        part: Part,
        index: u32,
    ) -> (Option<Assignment>, Term) {
        let each = part.of(self.count(second));
        self.walk_tick(first, index / each);
        self.pick(second, part, index % each)
    }

    /// Collects the guards of tick number `index` of the term.
    fn walk_tick(&mut self, term: &Term, index: u32) {
        self.pass(term);
        if let Term::Process(process) = term {
            if !self.walked.insert((process.id, index)) {
                return;
            }
        }
        match view(term, self.fleet) {
            View::Idle | View::Action(_) => unreachable!("no tick here"),
            View::Tick => {}
            View::Choice(p, q) => {
                let first = self.count(&p).ticks;
                if index < first {
                    self.walk_tick(&p, index);
                } else {
                    self.walk_tick(&q, index - first);
                }
            }
            View::Guarded(g, p) => {
                self.collect(g);
                self.walk_tick(&p, index);
            }
            View::Body(p) => self.walk_tick(&p, index),
            View::Sequence(p, q) => {
                let each = self.count(&q).ticks;
                self.walk_tick(&p, index / each);
                self.walk_tick(&q, index % each);
            }
            View::Parallel(p, q) => {
                let (left, right) = (self.count(&p).ticks, self.count(&q).ticks);
                if index < left * right {
                    self.walk_tick(&p, index / right);
                    self.walk_tick(&q, index % right);
                } else {
                    let index = index - left * right;
                    self.walk_tick(&q, index / left);
                    self.walk_tick(&p, index % left);
                }
            }
        }
    }
}
