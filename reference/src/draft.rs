//! A table in the making: nodes are added one by one, roots last. Nothing is
//! checked, so drafts of faulty tables can be made too.

use crate::rng::Rng;

/// A node before its bytes: kind and operand.
#[derive(Clone, Copy, Debug, PartialEq, Eq)]
pub struct Raw {
    pub kind: u8,
    pub p: u16,
    pub q: u16,
}

impl Raw {
    /// Which of p and q name nodes.
    pub fn names(self) -> (bool, bool) {
        match self.kind {
            5..=8 | 17..=19 | 21..=22 | 36..=40 => (true, true),
            2..=4 => (false, true),
            20 | 64 => (true, false),
            _ => (false, false),
        }
    }
}

#[derive(Clone, Debug, Default)]
pub struct Draft {
    pub nodes: Vec<Raw>,
    /// What the roots name.
    pub definitions: Vec<u16>,
    pub links: Vec<u16>,
    pub agents: Vec<u16>,
    pub attributes: u16,
    pub environment: u16,
}

impl Draft {
    /// A draft with so many attributes and environment keys. The stigmergy
    /// keys are as many as the links.
    pub fn new(attributes: u16, environment: u16) -> Draft {
        Draft {
            attributes,
            environment,
            ..Draft::default()
        }
    }

    /// Adds a node and gives its number.
    pub fn node(&mut self, kind: u8, p: u16, q: u16) -> u16 {
        self.nodes.push(Raw { kind, p, q });
        (self.nodes.len() - 1) as u16
    }

    pub fn idle(&mut self) -> u16 {
        self.node(0, 0, 0)
    }

    pub fn tick(&mut self) -> u16 {
        self.node(1, 0, 0)
    }

    pub fn set_attribute(&mut self, key: u16, value: u16) -> u16 {
        self.node(2, key, value)
    }

    pub fn set_stigmergy(&mut self, key: u16, value: u16) -> u16 {
        self.node(3, key, value)
    }

    pub fn set_environment(&mut self, key: u16, value: u16) -> u16 {
        self.node(4, key, value)
    }

    pub fn sequence(&mut self, p: u16, q: u16) -> u16 {
        self.node(5, p, q)
    }

    pub fn choice(&mut self, p: u16, q: u16) -> u16 {
        self.node(6, p, q)
    }

    pub fn guarded(&mut self, guard: u16, p: u16) -> u16 {
        self.node(7, guard, p)
    }

    pub fn parallel(&mut self, p: u16, q: u16) -> u16 {
        self.node(8, p, q)
    }

    pub fn call(&mut self, definition: u16) -> u16 {
        self.node(9, definition, 0)
    }

    pub fn truth(&mut self) -> u16 {
        self.node(16, 0, 0)
    }

    pub fn equal(&mut self, a: u16, b: u16) -> u16 {
        self.node(17, a, b)
    }

    pub fn less(&mut self, a: u16, b: u16) -> u16 {
        self.node(18, a, b)
    }

    pub fn greater(&mut self, a: u16, b: u16) -> u16 {
        self.node(19, a, b)
    }

    pub fn not(&mut self, a: u16) -> u16 {
        self.node(20, a, 0)
    }

    pub fn and(&mut self, a: u16, b: u16) -> u16 {
        self.node(21, a, b)
    }

    pub fn or(&mut self, a: u16, b: u16) -> u16 {
        self.node(22, a, b)
    }

    pub fn constant(&mut self, value: i32) -> u16 {
        let word = value as u32;
        self.node(32, word as u16, (word >> 16) as u16)
    }

    pub fn attribute(&mut self, key: u16, party: u16) -> u16 {
        self.node(33, key, party)
    }

    pub fn stigmergy(&mut self, key: u16, party: u16) -> u16 {
        self.node(34, key, party)
    }

    pub fn environment(&mut self, key: u16) -> u16 {
        self.node(35, key, 0)
    }

    /// Operator 0 to 4: +, -, x, divide, remainder.
    pub fn binary(&mut self, operator: u8, a: u16, b: u16) -> u16 {
        self.node(36 + operator, a, b)
    }

    pub fn define(&mut self, body: u16) {
        self.definitions.push(body);
    }

    pub fn link(&mut self, guard: u16) {
        self.links.push(guard);
    }

    /// A link that holds where the receiver has set this attribute.
    pub fn link_where_set(&mut self, key: u16) {
        let (x, y) = (self.attribute(key, 2), self.attribute(key, 2));
        let set = self.equal(x, y);
        self.link(set);
    }

    pub fn agent(&mut self, start: u16) {
        self.agents.push(start);
    }

    /// How many nodes the table has, roots included.
    pub fn size(&self) -> usize {
        self.nodes.len() + self.definitions.len() + self.links.len() + self.agents.len()
    }

    /// The table.
    pub fn bytes(&self) -> Vec<u8> {
        let named = [&self.definitions, &self.links, &self.agents];
        let roots = named
            .into_iter()
            .flatten()
            .map(|&p| Raw { kind: 64, p, q: 0 });
        let all: Vec<Raw> = self.nodes.iter().copied().chain(roots).collect();
        let header = [
            all.len() as u16,
            self.definitions.len() as u16,
            self.agents.len() as u16,
            self.attributes,
            self.links.len() as u16,
            self.environment,
        ];
        let mut bytes = Vec::new();
        for field in header {
            bytes.extend(field.to_le_bytes());
        }
        bytes.extend(all.iter().map(|node| node.kind));
        for node in all {
            bytes.extend(node.p.to_le_bytes());
            bytes.extend(node.q.to_le_bytes());
        }
        bytes
    }

    /// Numbers the nodes anew, in a random order in which a node still comes
    /// after those that it names.
    pub fn shuffle(&mut self, rng: &mut Rng) {
        let mut waiting = vec![0; self.nodes.len()];
        let mut namers = vec![Vec::new(); self.nodes.len()];
        for (i, node) in self.nodes.iter().enumerate() {
            let (p, q) = node.names();
            for (named, number) in [(p, node.p), (q, node.q)] {
                if named {
                    waiting[i] += 1;
                    namers[usize::from(number)].push(i);
                }
            }
        }
        let mut ready: Vec<usize> = (0..self.nodes.len()).filter(|&i| waiting[i] == 0).collect();
        let mut order = Vec::new();
        while !ready.is_empty() {
            let i = ready.swap_remove(rng.below(ready.len()));
            order.push(i);
            for &namer in &namers[i] {
                waiting[namer] -= 1;
                if waiting[namer] == 0 {
                    ready.push(namer);
                }
            }
        }
        let mut new = vec![0u16; self.nodes.len()];
        for (number, &i) in order.iter().enumerate() {
            new[i] = number as u16;
        }
        let renamed = |node: Raw| {
            let (p, q) = node.names();
            Raw {
                kind: node.kind,
                p: if p { new[usize::from(node.p)] } else { node.p },
                q: if q { new[usize::from(node.q)] } else { node.q },
            }
        };
        self.nodes = order.iter().map(|&i| renamed(self.nodes[i])).collect();
        for root in [&mut self.definitions, &mut self.links, &mut self.agents] {
            for named in root.iter_mut() {
                *named = new[usize::from(*named)];
            }
        }
    }
}
