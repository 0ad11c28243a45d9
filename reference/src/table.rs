//! Reading a fleet table: sizes (refusals 1 to 3), then nodes (4), then the
//! checks on the whole (5, 6, 7).

use std::cell::OnceCell;
use std::collections::BTreeSet;
use std::rc::Rc;

use crate::count::check_counts;
use crate::expose::check_exposed;
use crate::reach::check_reach;
use crate::refusal::{Answer, Reason, Refusal};
use crate::syntax::{
    Assignment, Expr, ExprForm, Guard, GuardForm, Key, NodeId, Operator, Party, Process,
    ProcessForm, Relation, Store,
};

pub const MAX_NODES: usize = 4_096;
pub const MAX_DEFINITIONS: usize = 64;
pub const MAX_AGENTS: usize = 32;
pub const MAX_KEYS: usize = 16;
pub const HEADER_BYTES: usize = 12;

/// The six numbers at the head of a table.
#[derive(Clone, Copy, Debug, PartialEq, Eq)]
pub struct Sizes {
    pub nodes: usize,
    pub definitions: usize,
    pub agents: usize,
    pub attributes: usize,
    pub stigmergy: usize,
    pub environment: usize,
}

impl Sizes {
    /// The header as it stands, with no look at the limits.
    pub fn of_header(table: &[u8]) -> Option<Sizes> {
        let field = |i: usize| {
            let pair = table.get(2 * i..2 * i + 2)?;
            Some(usize::from(u16::from_le_bytes([pair[0], pair[1]])))
        };
        Some(Sizes {
            nodes: field(0)?,
            definitions: field(1)?,
            agents: field(2)?,
            attributes: field(3)?,
            stigmergy: field(4)?,
            environment: field(5)?,
        })
    }

    pub fn roots(&self) -> usize {
        self.definitions + self.stigmergy + self.agents
    }

    pub fn table_bytes(&self) -> usize {
        HEADER_BYTES + 5 * self.nodes
    }

    fn within_limits(&self) -> bool {
        (1..=MAX_NODES).contains(&self.nodes)
            && self.definitions <= MAX_DEFINITIONS
            && (1..=MAX_AGENTS).contains(&self.agents)
            && self.attributes <= MAX_KEYS
            && self.stigmergy <= MAX_KEYS
            && self.environment <= MAX_KEYS
            && self.roots() <= self.nodes
    }

    /// Refusals 1, 2, 3.
    pub fn read(table: &[u8]) -> Answer<Sizes> {
        let sizes = Sizes::of_header(table).ok_or(Reason::TableShort)?;
        if !sizes.within_limits() {
            return Err(Reason::SizeOutsideLimits.into());
        }
        if table.len() != sizes.table_bytes() {
            return Err(Reason::TableLength.into());
        }
        Ok(sizes)
    }
}

/// A node of the table, by sort.
#[derive(Debug)]
pub enum Node {
    Process(Rc<Process>),
    Guard(Rc<Guard>),
    Expr(Rc<Expr>),
    Root,
}

/// An accepted table.
#[derive(Debug)]
pub struct Fleet {
    pub sizes: Sizes,
    pub nodes: Vec<Node>,
    pub definitions: Vec<Rc<Process>>,
    pub links: Vec<Rc<Guard>>,
    pub starts: Vec<Rc<Process>>,
}

impl Fleet {
    /// Refusals 4 to 7, for a table whose sizes are read.
    pub fn read(table: &[u8], sizes: Sizes) -> Answer<Fleet> {
        let fleet = Reader::new(table, sizes).read()?;
        let processes = fleet.processes();
        check_reach(&processes, &fleet.links)?;
        check_exposed(&fleet.definitions)?;
        check_counts(&processes, &fleet.definitions)?;
        Ok(fleet)
    }

    /// Every process node, in the order of the numbers.
    pub fn processes(&self) -> Vec<Rc<Process>> {
        let process = |node: &Node| match node {
            Node::Process(p) => Some(Rc::clone(p)),
            _ => None,
        };
        self.nodes.iter().filter_map(process).collect()
    }

    pub fn process(&self, number: u32) -> Option<Rc<Process>> {
        match self.nodes.get(usize::try_from(number).ok()?)? {
            Node::Process(p) => Some(Rc::clone(p)),
            _ => None,
        }
    }
}

/// Builds the trees node by node. Nodes name lower nodes only, so what a node
/// names is built before it, or is at fault.
struct Reader<'a> {
    sizes: Sizes,
    kinds: &'a [u8],
    operands: &'a [u8],
    nodes: Vec<Node>,
    /// What nodes other than roots have named so far.
    named: BTreeSet<NodeId>,
    definitions: Vec<Rc<Process>>,
    links: Vec<Rc<Guard>>,
    starts: Vec<Rc<Process>>,
}

impl<'a> Reader<'a> {
    fn new(table: &'a [u8], sizes: Sizes) -> Reader<'a> {
        let (kinds, operands) = table[HEADER_BYTES..].split_at(sizes.nodes);
        Reader {
            sizes,
            kinds,
            operands,
            nodes: Vec::new(),
            named: BTreeSet::new(),
            definitions: Vec::new(),
            links: Vec::new(),
            starts: Vec::new(),
        }
    }

    fn read(mut self) -> Answer<Fleet> {
        for id in 0..self.sizes.nodes {
            let node = self
                .node(id)
                .ok_or(Refusal::at(Reason::BadNode, id as NodeId))?;
            self.nodes.push(node);
        }
        Ok(Fleet {
            sizes: self.sizes,
            nodes: self.nodes,
            definitions: self.definitions,
            links: self.links,
            starts: self.starts,
        })
    }

    /// The node with this number, or None if it has a fault.
    fn node(&mut self, id: usize) -> Option<Node> {
        let operand: [u8; 4] = self.operands[4 * id..4 * id + 4].try_into().ok()?;
        let p = u16::from_le_bytes([operand[0], operand[1]]);
        let q = u16::from_le_bytes([operand[2], operand[3]]);
        let kind = self.kinds[id];
        let first_root = self.sizes.nodes - self.sizes.roots();
        if (kind == 64) != (id >= first_root) {
            return None;
        }
        let id = id as NodeId;
        match kind {
            0..=9 => {
                let form = self.process_form(id, kind, p, q)?;
                let count = OnceCell::new();
                Some(Node::Process(Rc::new(Process { id, form, count })))
            }
            16..=22 => {
                let form = self.guard_form(kind, p, q)?;
                Some(Node::Guard(Rc::new(Guard { id, form })))
            }
            32 => {
                let form = ExprForm::Constant(i32::from_le_bytes(operand));
                Some(Node::Expr(Rc::new(Expr { id, form })))
            }
            33..=40 => {
                let form = self.expr_form(kind, p, q)?;
                Some(Node::Expr(Rc::new(Expr { id, form })))
            }
            64 => {
                zero(q)?;
                self.root(p)?;
                Some(Node::Root)
            }
            _ => None,
        }
    }

    fn process_form(&mut self, node: NodeId, kind: u8, p: u16, q: u16) -> Option<ProcessForm> {
        Some(match kind {
            0 | 1 => {
                zero(p)?;
                zero(q)?;
                if kind == 0 {
                    ProcessForm::Idle
                } else {
                    ProcessForm::Tick
                }
            }
            2..=4 => {
                let (store, size) = match kind {
                    2 => (Store::Attribute, self.sizes.attributes),
                    3 => (Store::Stigmergy, self.sizes.stigmergy),
                    _ => (Store::Environment, self.sizes.environment),
                };
                let key = below(p, size)?;
                let value = self.expr(q)?;
                ProcessForm::Set(Assignment {
                    node,
                    store,
                    key,
                    value,
                })
            }
            5 => ProcessForm::Sequence(self.process(p)?, self.process(q)?),
            6 => ProcessForm::Choice(self.process(p)?, self.process(q)?),
            7 => ProcessForm::Guarded(self.guard(p)?, self.process(q)?),
            8 => ProcessForm::Parallel(self.process(p)?, self.process(q)?),
            9 => {
                zero(q)?;
                ProcessForm::Call(below(p, self.sizes.definitions)?)
            }
            _ => return None,
        })
    }

    fn guard_form(&mut self, kind: u8, p: u16, q: u16) -> Option<GuardForm> {
        Some(match kind {
            16 => {
                zero(p)?;
                zero(q)?;
                GuardForm::True
            }
            17 => GuardForm::Compare(Relation::Equal, self.expr(p)?, self.expr(q)?),
            18 => GuardForm::Compare(Relation::Less, self.expr(p)?, self.expr(q)?),
            19 => GuardForm::Compare(Relation::Greater, self.expr(p)?, self.expr(q)?),
            20 => {
                zero(q)?;
                GuardForm::Not(self.guard(p)?)
            }
            21 => GuardForm::And(self.guard(p)?, self.guard(q)?),
            22 => GuardForm::Or(self.guard(p)?, self.guard(q)?),
            _ => return None,
        })
    }

    fn expr_form(&mut self, kind: u8, p: u16, q: u16) -> Option<ExprForm> {
        let operator = match kind {
            33 => {
                return Some(ExprForm::Attribute(
                    below(p, self.sizes.attributes)?,
                    party(q)?,
                ))
            }
            34 => {
                return Some(ExprForm::Stigmergy(
                    below(p, self.sizes.stigmergy)?,
                    party(q)?,
                ))
            }
            35 => {
                zero(q)?;
                return Some(ExprForm::Environment(below(p, self.sizes.environment)?));
            }
            36 => Operator::Add,
            37 => Operator::Subtract,
            38 => Operator::Multiply,
            39 => Operator::Divide,
            40 => Operator::Remainder,
            _ => return None,
        };
        Some(ExprForm::Binary(operator, self.expr(p)?, self.expr(q)?))
    }

    /// A root's naming is not counted as a naming.
    fn root(&mut self, p: u16) -> Option<()> {
        let node = self.nodes.get(usize::from(p))?;
        if self.definitions.len() < self.sizes.definitions {
            match node {
                Node::Process(body) => self.definitions.push(Rc::clone(body)),
                _ => return None,
            }
        } else if self.links.len() < self.sizes.stigmergy {
            match node {
                Node::Guard(link) => self.links.push(Rc::clone(link)),
                _ => return None,
            }
        } else {
            match node {
                Node::Process(start) => self.starts.push(Rc::clone(start)),
                _ => return None,
            }
        }
        Some(())
    }

    /// The lower node of this number, if nothing has named it before.
    fn name(&mut self, number: u16) -> Option<&Node> {
        let node = self.nodes.get(usize::from(number))?;
        self.named.insert(number).then_some(node)
    }

    fn process(&mut self, number: u16) -> Option<Rc<Process>> {
        match self.name(number)? {
            Node::Process(p) => Some(Rc::clone(p)),
            _ => None,
        }
    }

    fn guard(&mut self, number: u16) -> Option<Rc<Guard>> {
        match self.name(number)? {
            Node::Guard(g) => Some(Rc::clone(g)),
            _ => None,
        }
    }

    fn expr(&mut self, number: u16) -> Option<Rc<Expr>> {
        match self.name(number)? {
            Node::Expr(e) => Some(Rc::clone(e)),
            _ => None,
        }
    }
}

fn zero(field: u16) -> Option<()> {
    (field == 0).then_some(())
}

fn below(field: u16, size: usize) -> Option<Key> {
    (usize::from(field) < size).then_some(field)
}

fn party(field: u16) -> Option<Party> {
    match field {
        0 => Some(Party::Own),
        1 => Some(Party::Sender),
        2 => Some(Party::Receiver),
        _ => None,
    }
}
