//! What a rehearsal shows of the definitions that are computed on it. A thing
//! is counted where a change of it would change what the rehearsal gives.

use std::collections::{BTreeMap, BTreeSet};
use std::fmt;
use std::rc::Rc;

use super::Equation;
use crate::count::{count, OVER};
use crate::derive::{any_over, count_term, list, select, Derivation};
use crate::machine::open;
use crate::schedule;
use crate::state::{wrong_writer, World, WrongWriter, MAX_CLOCK, STATE_WORDS};
use crate::step::Step;
use crate::syntax::{
    Expr, ExprForm, Guard, GuardForm, Key, NodeId, Operator, Process, ProcessForm, Store,
};
use crate::table::{Fleet, HEADER_BYTES};
use crate::term::{Term, MAX_WORDS};
use crate::value::Scene;

/// The kinds of nodes, in the paper's order.
const KINDS: [u8; 27] = [
    0, 1, 2, 3, 4, 5, 6, 7, 8, 9, 16, 17, 18, 19, 20, 21, 22, 32, 33, 34, 35, 36, 37, 38, 39, 40,
    64,
];

const OPERATORS: [Operator; 5] = [
    Operator::Add,
    Operator::Subtract,
    Operator::Multiply,
    Operator::Divide,
    Operator::Remainder,
];

/// Neighbours in the order of the refusals that one call or step can hold.
const NEIGHBOURS: [(u8, u8); 7] = [
    (9, 19),
    (11, 12),
    (12, 13),
    (12, 14),
    (14, 15),
    (15, 16),
    (16, 17),
];

#[derive(Clone, Copy, Debug, PartialEq, Eq, PartialOrd, Ord)]
pub enum Feature {
    /// A process node that the derivation of a done act goes through (idle: one
    /// that is refused, as there is none); a guard that decides; an operator
    /// whose value is written and is that of no other operator, or any other
    /// part of what is written; a root of an accepted table.
    Kind(u8),
    /// Load's answer, run's, and that of a step of a run.
    Load(u8),
    Run(u8),
    Step(u8),
    /// Two faults of one call or step, of which the first is answered.
    Both(u8, u8),
    /// A comparison of equal values decides.
    EqualOperands(u8),
    /// Not, of a guard that is not well defined, decides.
    UndefinedNegated,
    /// A done act with a number above 0.
    LaterChoice,
    /// A tick joins an action.
    TickJoins,
    /// Done acts of one run call definition 0 and another one, for an action
    /// that definition 0 does not have.
    TwoDefinitions,
    /// A quotient or remainder that is written, not exact, and either the
    /// divisor is below 0 (true) or the dividend, but not both.
    Inexact(u8, bool),
    /// A done act's guards have a key that has no entry.
    KeyWithoutEntry,
    /// A node with as many derivations as it may have.
    FullNode,
    /// An agent without an entry takes what is propagated, or confirmed (true),
    /// in a run that does not add as often as it replaces.
    Added(bool),
    /// The same of an agent with an older entry.
    Replaced(bool),
    /// An agent with a newer entry gains the key in Zp (QRY2).
    Answered,
    /// An agent that takes an entry had its key to confirm.
    Unconfirmed,
    /// A key's link decides, and that of key 0 would decide otherwise.
    LinksDiffer,
    /// A link decides, and would decide otherwise the other way around.
    OneWay,
    /// An agent with another value under the same stamp is left alone. No load
    /// leads to such a state.
    EqualStamps,
    /// An agent takes an entry that is confirmed (true) or propagated, and that
    /// neither it nor the sender nor agent 0 wrote.
    OtherWriter(bool),
    /// An agent takes an entry that was written in the run, by another one than
    /// the sender and agent 0.
    PassedOn,
    /// An agent writes where it has an entry that another one wrote.
    WrittenOver,
    /// A run is refused for one writer alone: that of an entry, which is A.
    WriterPast,
    /// The same: one above 0 and below A, where there is no entry.
    WriterAlone,
    /// A refused step of a run with done ones before and after it.
    RefusedAmongDone,
}

impl fmt::Display for Feature {
    fn fmt(&self, out: &mut fmt::Formatter) -> fmt::Result {
        match self {
            Feature::Kind(kind) => write!(out, "kind {kind}"),
            Feature::Load(refusal) => write!(out, "load refused {refusal}"),
            Feature::Run(refusal) => write!(out, "run refused {refusal}"),
            Feature::Step(refusal) => write!(out, "step refused {refusal}"),
            Feature::Both(first, second) => write!(out, "{first} before {second}"),
            Feature::EqualOperands(kind) => write!(out, "equal operands of {kind}"),
            Feature::UndefinedNegated => write!(out, "not of undefined"),
            Feature::LaterChoice => write!(out, "choice above 0"),
            Feature::TickJoins => write!(out, "tick joins"),
            Feature::TwoDefinitions => write!(out, "two definitions"),
            Feature::Inexact(kind, true) => write!(out, "inexact {kind}, divisor below 0"),
            Feature::Inexact(kind, false) => write!(out, "inexact {kind}, dividend below 0"),
            Feature::KeyWithoutEntry => write!(out, "key without entry read"),
            Feature::Unconfirmed => write!(out, "key to confirm taken"),
            Feature::FullNode => write!(out, "node with 65,535 derivations"),
            Feature::Added(false) => write!(out, "propagate adds"),
            Feature::Added(true) => write!(out, "confirm adds"),
            Feature::Replaced(false) => write!(out, "propagate replaces"),
            Feature::Replaced(true) => write!(out, "confirm replaces"),
            Feature::Answered => write!(out, "confirm answered"),
            Feature::LinksDiffer => write!(out, "links of keys differ"),
            Feature::OneWay => write!(out, "link one way"),
            Feature::EqualStamps => write!(out, "equal stamps"),
            Feature::OtherWriter(false) => write!(out, "propagate of another's write taken"),
            Feature::OtherWriter(true) => write!(out, "confirm of another's write taken"),
            Feature::PassedOn => write!(out, "write passed on twice"),
            Feature::WrittenOver => write!(out, "another's write written over"),
            Feature::WriterPast => write!(out, "refused for a writer past the last"),
            Feature::WriterAlone => write!(out, "refused for a writer without entry"),
            Feature::RefusedAmongDone => write!(out, "refused among done"),
        }
    }
}

/// All that the rehearsals together have to show.
pub fn required() -> BTreeSet<Feature> {
    let mut all: BTreeSet<Feature> = KINDS.map(Feature::Kind).into();
    all.extend([4, 5, 6, 7].map(Feature::Load));
    all.extend([9, 19].map(Feature::Run));
    all.extend((10..=18).map(Feature::Step));
    all.extend(NEIGHBOURS.map(|(first, second)| Feature::Both(first, second)));
    all.extend([17, 18, 19].map(Feature::EqualOperands));
    for divisor in [false, true] {
        all.extend([39, 40].map(|kind| Feature::Inexact(kind, divisor)));
    }
    for of in [Feature::Added, Feature::Replaced, Feature::OtherWriter] {
        all.extend([false, true].map(of));
    }
    all.extend([
        Feature::UndefinedNegated,
        Feature::LaterChoice,
        Feature::TickJoins,
        Feature::TwoDefinitions,
        Feature::KeyWithoutEntry,
        Feature::FullNode,
        Feature::Unconfirmed,
        Feature::Answered,
        Feature::LinksDiffer,
        Feature::OneWay,
        Feature::EqualStamps,
        Feature::PassedOn,
        Feature::WrittenOver,
        Feature::WriterPast,
        Feature::WriterAlone,
        Feature::RefusedAmongDone,
    ]);
    all
}

/// What is required and none of these shows.
pub fn missing(equations: &[Equation]) -> BTreeSet<Feature> {
    let mut left = required();
    for equation in equations {
        for feature in shown(equation) {
            left.remove(&feature);
        }
    }
    left
}

/// What a rehearsal shows. Its answers are those that it gives.
pub fn shown(equation: &Equation) -> BTreeSet<Feature> {
    let mut seen = BTreeSet::new();
    let (load, run) = (equation.given[0] as u8, equation.given[2] as u8);
    let steps = schedule::read(&equation.schedule);
    if load != 0 {
        seen.insert(Feature::Load(load));
        return seen;
    }
    if run != 0 {
        seen.insert(Feature::Run(run));
        if run == 9 {
            seen.extend(writer_feature(equation));
            seen.extend(steps.is_err().then_some(Feature::Both(9, 19)));
        }
        return seen;
    }
    let fleet = open(&equation.table, STATE_WORDS, usize::MAX).expect("load accepts it");
    let world = World::decode(&equation.before(), &fleet).expect("run accepts it");
    let [added, replaced] = equation.counts();
    let mut observer = Observer {
        table: &equation.table,
        fleet: &fleet,
        tells_counts: added != replaced,
        called: [false; 2],
        writers: BTreeMap::new(),
        seen,
    };
    observer.table();
    observer.run(world, &steps.expect("run accepts it"), equation.answers());
    observer.seen
}

/// How one writer alone makes the state ill-formed.
fn writer_feature(equation: &Equation) -> Option<Feature> {
    let fleet = open(&equation.table, STATE_WORDS, usize::MAX).expect("load accepts it");
    match wrong_writer(&equation.before(), &fleet)? {
        WrongWriter::Alone => Some(Feature::WriterAlone),
        WrongWriter::Agents => Some(Feature::WriterPast),
        _ => None,
    }
}

/// Follows a run.
struct Observer<'a> {
    table: &'a [u8],
    fleet: &'a Fleet,
    /// Whether its two counts differ.
    tells_counts: bool,
    /// Whether done acts have called definition 0, and another one.
    called: [bool; 2],
    /// Who wrote the stamps of the run.
    writers: BTreeMap<u32, usize>,
    seen: BTreeSet<Feature>,
}

impl Observer<'_> {
    fn kind(&self, node: NodeId) -> u8 {
        self.table[HEADER_BYTES + usize::from(node)]
    }

    fn see(&mut self, feature: Feature) {
        self.seen.insert(feature);
    }

    fn see_kind(&mut self, node: NodeId) {
        self.see(Feature::Kind(self.kind(node)));
    }

    fn table(&mut self) {
        self.see(Feature::Kind(64));
        let full = |p: &Rc<Process>| count(p, &self.fleet.definitions).total() == OVER - 1;
        if self.fleet.processes().iter().any(full) {
            self.see(Feature::FullNode);
        }
    }

    fn run(&mut self, mut world: World, steps: &[Step], answers: &[u32]) {
        let done = |&answer: &u32| answer == 0;
        let (first, last) = (
            answers.iter().position(done),
            answers.iter().rposition(done),
        );
        for (i, (&step, &answer)) in steps.iter().zip(answers).enumerate() {
            let answer = answer as u8;
            if answer != 0 {
                self.see(Feature::Step(answer));
                if first.is_some_and(|first| first < i) && last.is_some_and(|last| i < last) {
                    self.see(Feature::RefusedAmongDone);
                }
            }
            if answer != 10 {
                let (who, number) = (usize::from(step.agent), step.number);
                match step.kind {
                    0 => self.act(&world, who, number, answer),
                    kind if answer == 0 => self.send(&world, who, number, kind == 2),
                    _ => {}
                }
            }
            let before = world.clone();
            let again = world.step(self.fleet, step);
            if world.clock > before.clock {
                self.wrote(&before, &world, usize::from(step.agent));
            }
            assert_eq!(again.map_or_else(|r| r.reason.number(), |_| 0), answer);
        }
    }

    /// A write of an agent, from what was before and after it.
    fn wrote(&mut self, before: &World, after: &World, who: usize) {
        self.writers.insert(after.clock, who);
        let mut entries = after.agents[who].entries.iter();
        let (key, _) = entries
            .find(|(_, entry)| entry.stamp == after.clock)
            .expect("what is written");
        let held = before.agents[who].entries.get(key);
        if held.is_some_and(|entry| usize::from(entry.writer) != who) {
            self.see(Feature::WrittenOver);
        }
    }

    /// An act of an agent that there is.
    fn act(&mut self, world: &World, who: usize, choice: u16, answer: u8) {
        let residual = &world.agents[who].residual;
        let chosen = chosen(world, self.fleet, who, choice);
        for fault in faults(world, self.fleet, who, chosen.as_ref()) {
            if answer != 0 && answer < fault {
                self.see(Feature::Both(answer, fault));
            }
        }
        match (residual, chosen) {
            (Term::Process(p), None) if answer == 13 && matches!(p.form, ProcessForm::Idle) => {
                self.see_kind(p.id);
            }
            (_, Some(derivation)) if answer == 0 || answer >= 14 => {
                let scene = Scene::Agent(&world.agents[who], &world.environment);
                let guards: Vec<_> = derivation.guards.values().collect();
                if let [guard] = guards[..] {
                    self.decides(guard, scene);
                }
                if answer == 0 {
                    self.done(&derivation, choice, scene);
                }
            }
            _ => {}
        }
    }

    fn done(&mut self, derivation: &Derivation, choice: u16, scene: Scene) {
        if choice > 0 {
            self.see(Feature::LaterChoice);
        }
        for &node in &derivation.nodes {
            self.see_kind(node);
        }
        self.calls(derivation);
        if let Some(action) = &derivation.action {
            self.written(&action.value, scene);
            if derivation.nodes.iter().any(|&node| self.kind(node) == 1) {
                self.see(Feature::TickJoins);
            }
        }
        let mut read = BTreeSet::new();
        for guard in derivation.guards.values() {
            guard.stigmergy_keys(&mut read);
        }
        if let Scene::Agent(agent, _) = scene {
            if read.iter().any(|&key| agent.stamp(key) == 0) {
                self.see(Feature::KeyWithoutEntry);
            }
        }
    }

    /// Calls on the way of a done act.
    fn calls(&mut self, derivation: &Derivation) {
        let action = |d: &Derivation| d.action.as_ref().map(|action| action.node);
        for &node in &derivation.nodes {
            let process = self.fleet.process(u32::from(node)).expect("a process");
            match process.form {
                ProcessForm::Call(0) => self.called[0] = true,
                ProcessForm::Call(_) => {
                    let lowest = Term::Process(Rc::clone(&self.fleet.definitions[0]));
                    let mut others = list(&lowest, self.fleet).into_iter();
                    self.called[1] |= others.all(|other| action(&other) != action(derivation));
                }
                _ => {}
            }
        }
        if self.called == [true; 2] {
            self.see(Feature::TwoDefinitions);
        }
    }

    /// An expression that is written.
    fn written(&mut self, expression: &Expr, scene: Scene) {
        if let ExprForm::Binary(operator, a, b) = &expression.form {
            let (x, y) = (a.value(scene), b.value(scene));
            let (x, y) = (x.expect("present"), y.expect("present"));
            let value = operator.apply(x, y);
            let same = |other: &&Operator| other.apply(x, y) == value;
            if OPERATORS.iter().filter(same).count() == 1 {
                self.see_kind(expression.id);
                if (x < 0) != (y < 0) && x.checked_rem(y).is_some_and(|rest| rest != 0) {
                    self.see(Feature::Inexact(self.kind(expression.id), y < 0));
                }
            }
            self.leaves(a);
            self.leaves(b);
        } else {
            self.see_kind(expression.id);
        }
    }

    fn leaves(&mut self, expression: &Expr) {
        if let ExprForm::Binary(_, a, b) = &expression.form {
            self.leaves(a);
            self.leaves(b);
        } else {
            self.see_kind(expression.id);
        }
    }

    /// A guard by which alone an act is refused or not, or an agent reached or
    /// not.
    fn decides(&mut self, guard: &Guard, scene: Scene) {
        self.guard(guard);
        match &guard.form {
            GuardForm::Not(inner) => {
                if inner.judge(scene).defined {
                    self.decides(inner, scene);
                } else {
                    self.see(Feature::UndefinedNegated);
                }
            }
            GuardForm::Compare(_, a, b)
                if a.value(scene).is_some() && a.value(scene) == b.value(scene) =>
            {
                self.see(Feature::EqualOperands(self.kind(guard.id)));
            }
            _ => {}
        }
    }

    fn guard(&mut self, guard: &Guard) {
        self.see_kind(guard.id);
        match &guard.form {
            GuardForm::Not(inner) => self.guard(inner),
            GuardForm::And(a, b) | GuardForm::Or(a, b) => {
                self.guard(a);
                self.guard(b);
            }
            GuardForm::True | GuardForm::Compare(..) => {}
        }
    }

    /// A done propagate, or confirm, as it comes to each of the others.
    fn send(&mut self, world: &World, sender: usize, key: Key, confirms: bool) {
        let sent = world.agents[sender].entries[&key];
        for (receiver, agent) in world.agents.iter().enumerate() {
            if receiver == sender {
                continue;
            }
            let linked = world.linked(self.fleet, key, sender, receiver);
            let stamp = agent.stamp(key);
            let older = stamp < sent.stamp;
            let gains = confirms && stamp > sent.stamp && !agent.to_propagate.contains(&key);
            if linked && stamp == sent.stamp && agent.entries[&key].value != sent.value {
                self.see(Feature::EqualStamps);
            }
            if older || gains {
                self.link(world, sender, receiver, key);
            }
            if linked && older && agent.to_confirm.contains(&key) {
                self.see(Feature::Unconfirmed);
            }
            if linked && older {
                if self.tells_counts {
                    self.see(match stamp {
                        0 => Feature::Added(confirms),
                        _ => Feature::Replaced(confirms),
                    });
                }
                if ![0, sender, receiver].contains(&usize::from(sent.writer)) {
                    self.see(Feature::OtherWriter(confirms));
                }
                let writer = self.writers.get(&sent.stamp);
                if writer.is_some_and(|writer| ![0, sender].contains(writer)) {
                    self.see(Feature::PassedOn);
                }
            }
            if linked && gains {
                self.see(Feature::Answered);
            }
        }
    }

    /// A key's link that decides whether the receiver changes.
    fn link(&mut self, world: &World, sender: usize, receiver: usize, key: Key) {
        let linked = world.linked(self.fleet, key, sender, receiver);
        if world.linked(self.fleet, 0, sender, receiver) != linked {
            self.see(Feature::LinksDiffer);
        }
        if world.linked(self.fleet, key, receiver, sender) != linked {
            self.see(Feature::OneWay);
        }
        let scene = Scene::Link {
            sender: &world.agents[sender],
            receiver: &world.agents[receiver],
        };
        let link = Rc::clone(&self.fleet.links[usize::from(key)]);
        self.decides(&link, scene);
    }
}

/// The derivation of a choice, whatever else is wrong with the act; none where
/// there are too many to choose from.
fn chosen(world: &World, fleet: &Fleet, who: usize, choice: u16) -> Option<Derivation> {
    let residual = &world.agents[who].residual;
    let over = count_term(residual, fleet).is_over();
    (!over).then(|| select(residual, u32::from(choice), fleet))?
}

/// The faults of an act among 11 to 17, each judged by itself.
fn faults(world: &World, fleet: &Fleet, who: usize, chosen: Option<&Derivation>) -> Vec<u8> {
    let agent = &world.agents[who];
    let scene = Scene::Agent(agent, &world.environment);
    let pending = !agent.to_confirm.is_empty() || !agent.to_propagate.is_empty();
    let mut faults = vec![(11, pending), (12, any_over(&agent.residual, fleet))];
    match chosen {
        None => faults.push((13, !count_term(&agent.residual, fleet).is_over())),
        Some(derivation) => {
            let action = derivation.action.as_ref();
            let mut guards = derivation.guards.values();
            let writes = action.is_some_and(|action| action.store == Store::Stigmergy);
            faults.extend([
                (14, guards.any(|guard| !guard.holds(scene))),
                (15, action.is_some_and(|a| a.value.value(scene).is_none())),
                (16, writes && world.clock == MAX_CLOCK),
                (17, derivation.residual.words().len() > MAX_WORDS),
            ]);
        }
    }
    let there = faults.into_iter().filter(|&(_, there)| there);
    there.map(|(fault, _)| fault).collect()
}
