//! Random fleets that load accepts.

use crate::draft::Draft;
use crate::machine::open;
use crate::rng::Rng;
use crate::state::STATE_WORDS;
use crate::table::Fleet;

/// How large a fleet is to be.
#[derive(Clone, Copy, Debug, PartialEq, Eq)]
pub enum Scale {
    /// At most 24 nodes.
    Small,
    /// About 100 nodes.
    Middle,
    /// Many agents, keys and definitions, several hundred nodes.
    Large,
}

pub const SMALL_NODES: usize = 24;

/// A fleet that load accepts, and its table.
pub fn accepted(rng: &mut Rng, scale: Scale) -> (Vec<u8>, Fleet) {
    loop {
        let draft = random(rng, scale);
        if scale == Scale::Small && draft.size() > SMALL_NODES {
            continue;
        }
        let table = draft.bytes();
        if let Ok(fleet) = open(&table, STATE_WORDS, usize::MAX) {
            return (table, fleet);
        }
    }
}

/// A random draft, nearly always accepted.
pub fn random(rng: &mut Rng, scale: Scale) -> Draft {
    let (definitions, links, agents, keys, budget) = match scale {
        Scale::Small => (rng.below(3), rng.below(3), rng.between(1, 3), 2, 14),
        Scale::Middle => (rng.below(6), rng.between(1, 4), rng.between(1, 6), 4, 80),
        Scale::Large => (rng.below(20), rng.below(17), rng.between(1, 32), 16, 500),
    };
    let mut grower = Grower {
        draft: Draft::new(rng.below(keys + 1) as u16, rng.below(keys + 1) as u16),
        definitions,
        links,
        can_tick: Vec::new(),
        budget,
        idles: rng.below(3),
        ticks: if rng.chance(30) { 40 } else { 8 },
        constants: if rng.chance(50) { 20 } else { 5 },
        rng,
    };
    grower.grow(agents);
    grower.draft
}

/// Where an expression stands.
#[derive(Clone, Copy, PartialEq, Eq)]
enum Place {
    Process,
    Link,
    Loose,
}

/// Which calls a process may make: those below a definition while it is
/// exposed there, any elsewhere.
#[derive(Clone, Copy)]
enum Calls {
    Below(usize),
    Any,
}

struct Grower<'r> {
    draft: Draft,
    definitions: usize,
    links: usize,
    /// Which of the definitions made so far can tick.
    can_tick: Vec<bool>,
    /// About how many nodes may still be made.
    budget: usize,
    /// The weights of idle and tick among the leaves; actions have 32.
    idles: usize,
    ticks: usize,
    /// The weight of constants among the expressions of processes; keys of a
    /// store have up to 2. What is read is often absent, and ends a process.
    constants: usize,
    rng: &'r mut Rng,
}

impl Grower<'_> {
    fn grow(&mut self, agents: usize) {
        let depth = 5;
        for d in 0..self.definitions {
            let (body, ticks) = self.looping(depth, Calls::Below(d));
            self.can_tick.push(ticks);
            self.draft.define(body);
        }
        for _ in 0..self.links {
            let guard = self.guard(2, Place::Link);
            self.draft.link(guard);
        }
        for i in 0..agents {
            let start = if i > 0 && self.rng.chance(30) {
                *self.rng.pick(&self.draft.agents)
            } else if self.rng.chance(10) {
                self.any_process()
            } else {
                self.looping(depth, Calls::Any).0
            };
            self.draft.agent(start);
        }
        if self.rng.chance(20) {
            self.share_a_root();
        }
        if self.budget > 0 && self.rng.chance(30) {
            let loose = self.expr(2, Place::Loose);
            if self.rng.chance(50) {
                let other = self.expr(1, Place::Loose);
                self.draft.less(loose, other);
            }
        }
        if self.rng.chance(50) {
            self.draft.shuffle(self.rng);
        }
    }

    /// The number of some process node, made if there is none.
    fn any_process(&mut self) -> u16 {
        let made: Vec<u16> = (0..self.draft.nodes.len() as u16)
            .filter(|&i| self.draft.nodes[usize::from(i)].kind <= 9)
            .collect();
        if made.is_empty() {
            self.draft.tick()
        } else {
            *self.rng.pick(&made)
        }
    }

    /// Lets a definition have the body of another, or a part of one.
    fn share_a_root(&mut self) {
        let body = self.any_process();
        if let Some(root) = self.draft.definitions.last_mut() {
            *root = body;
        }
    }

    /// A process that ends in a call, where it may, so that the fleet lives on.
    fn looping(&mut self, depth: usize, calls: Calls) -> (u16, bool) {
        let (p, ticks) = self.process(depth, calls);
        let callable = match calls {
            Calls::Below(d) if ticks => d,
            _ => self.definitions,
        };
        if callable == 0 || self.rng.chance(25) {
            return (p, ticks);
        }
        let d = self.rng.below(callable);
        let call = self.draft.call(d as u16);
        let right = self.can_tick.get(d).copied().unwrap_or(false);
        (self.draft.sequence(p, call), ticks && right)
    }

    /// A process and whether it can tick.
    fn process(&mut self, depth: usize, calls: Calls) -> (u16, bool) {
        if depth == 0 || self.budget < 6 {
            return self.leaf(calls);
        }
        match self.rng.weighted(&[4, 5, 4, 3, 2, 4]) {
            0 => self.leaf(calls),
            1 => {
                let (p, left) = self.process(depth - 1, calls);
                let (q, right) = self.process(depth - 1, if left { calls } else { Calls::Any });
                self.spend();
                (self.draft.sequence(p, q), left && right)
            }
            2 => {
                let (p, left) = self.process(depth - 1, calls);
                let (q, right) = self.process(depth - 1, calls);
                self.spend();
                (self.draft.choice(p, q), left || right)
            }
            3 => {
                let guard = self.guard(2, Place::Process);
                let (p, ticks) = self.process(depth - 1, calls);
                self.spend();
                (self.draft.guarded(guard, p), ticks)
            }
            4 => {
                let (p, left) = self.process(depth - 1, calls);
                let (q, right) = self.process(depth - 1, calls);
                self.spend();
                (self.draft.parallel(p, q), left && right)
            }
            _ => {
                // An action, then anything: the usual form of recursion.
                let (p, left) = self.leaf(calls);
                let calls = if left { calls } else { Calls::Any };
                let (q, right) = if self.rng.chance(60) {
                    self.leaf(calls)
                } else {
                    self.process(depth - 1, calls)
                };
                self.spend();
                (self.draft.sequence(p, q), left && right)
            }
        }
    }

    fn leaf(&mut self, calls: Calls) -> (u16, bool) {
        let callable = match calls {
            Calls::Below(d) => d,
            Calls::Any => self.definitions,
        };
        self.spend();
        match self.rng.weighted(&[self.idles, self.ticks, 32, 16]) {
            0 => (self.draft.idle(), false),
            3 if callable > 0 => {
                let d = self.rng.below(callable);
                let ticks = self.can_tick.get(d).copied().unwrap_or(false);
                (self.draft.call(d as u16), ticks)
            }
            2 | 3 => self.assignment(),
            _ => (self.draft.tick(), true),
        }
    }

    fn assignment(&mut self) -> (u16, bool) {
        let attributes = usize::from(self.draft.attributes);
        let environment = usize::from(self.draft.environment);
        let weights = [attributes.min(3), 2 * self.links.min(3), environment.min(2)];
        if weights.iter().sum::<usize>() == 0 {
            return (self.draft.tick(), true);
        }
        let value = self.expr(2, Place::Process);
        let node = match self.rng.weighted(&weights) {
            0 => {
                let key = self.rng.below(attributes) as u16;
                self.draft.set_attribute(key, value)
            }
            1 => {
                let key = self.rng.below(self.links) as u16;
                self.draft.set_stigmergy(key, value)
            }
            _ => {
                let key = self.rng.below(environment) as u16;
                self.draft.set_environment(key, value)
            }
        };
        (node, false)
    }

    fn guard(&mut self, depth: usize, place: Place) -> u16 {
        self.spend();
        let kind = if depth == 0 || self.budget < 6 {
            self.rng.weighted(&[2, 5])
        } else {
            self.rng.weighted(&[4, 8, 2, 2, 2])
        };
        match kind {
            0 => self.draft.truth(),
            1 => {
                let a = self.expr(1, place);
                let b = self.expr(1, place);
                let kind = 17 + self.rng.below(3) as u8;
                self.draft.node(kind, a, b)
            }
            2 => {
                let a = self.guard(depth - 1, place);
                self.draft.not(a)
            }
            kind => {
                let a = self.guard(depth - 1, place);
                let b = self.guard(depth - 1, place);
                self.draft.node(18 + kind as u8, a, b)
            }
        }
    }

    fn expr(&mut self, depth: usize, place: Place) -> u16 {
        self.spend();
        let party = match place {
            Place::Process => 0,
            Place::Link => self.rng.between(1, 2),
            Place::Loose => self.rng.below(3),
        } as u16;
        let attributes = usize::from(self.draft.attributes);
        let environment = if place == Place::Link {
            0
        } else {
            usize::from(self.draft.environment)
        };
        let deeper = if depth > 0 && self.budget >= 6 { 3 } else { 0 };
        let constant = if place == Place::Process {
            self.constants
        } else {
            3
        };
        let weights = [
            constant,
            attributes.min(2),
            self.links.min(2),
            environment.min(2),
            deeper,
        ];
        match self.rng.weighted(&weights) {
            0 => {
                let value = self.value();
                self.draft.constant(value)
            }
            1 => {
                let key = self.rng.below(attributes) as u16;
                self.draft.attribute(key, party)
            }
            2 => {
                let key = self.rng.below(self.links) as u16;
                self.draft.stigmergy(key, party)
            }
            3 => {
                let key = self.rng.below(environment) as u16;
                self.draft.environment(key)
            }
            _ => {
                let a = self.expr(depth - 1, place);
                let b = self.expr(depth - 1, place);
                let operator = self.rng.below(5) as u8;
                self.draft.binary(operator, a, b)
            }
        }
    }

    fn value(&mut self) -> i32 {
        value(self.rng)
    }

    fn spend(&mut self) {
        self.budget = self.budget.saturating_sub(1);
    }
}

/// Mostly small values, some below 0, some at the ends.
pub fn value(rng: &mut Rng) -> i32 {
    match rng.below(20) {
        0 => i32::MAX,
        1 => i32::MIN,
        2 => i32::MAX - rng.below(3) as i32,
        3 => rng.word() as i32,
        4 | 5 => -2 - rng.below(6) as i32,
        _ => rng.below(6) as i32 - 1,
    }
}
