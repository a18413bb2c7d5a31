//! Random rules.

use super::hosts::{odd_position, HostMaker, Role};
use super::{LETTERS, RULE_TEXT};
use crate::random::Random;
use crate::rule::{Body, Name, Node, Stmt, E};

const MAX_DEPTH: usize = 32;

pub fn rule(random: &mut Random, hosts: &mut HostMaker) -> Vec<Stmt> {
    let budget = match random.weighted(&[4, 4, 2]) {
        0 => random.between(0, 4),
        1 => random.between(5, 10),
        _ => random.between(11, 30),
    };
    let mut maker = RuleMaker {
        random,
        hosts,
        budget,
    };
    if maker.random.percent(3) {
        let innermost = maker.random.between(3, MAX_DEPTH);
        return vec![maker.deep(1, innermost)];
    }
    let mut statements = maker.first_names();
    statements.extend(maker.statements(1, false));
    statements
}

struct RuleMaker<'a> {
    random: &'a mut Random,
    hosts: &'a mut HostMaker,
    /// How many more statements there may be.
    budget: usize,
}

impl RuleMaker<'_> {
    /// Some variables to begin with, for else most rules end at their first unknown name.
    fn first_names(&mut self) -> Vec<Stmt> {
        let count = self.random.weighted(&[4, 4, 2, 1]);
        let names = (0..count).map(|_| {
            let node = Node::Var {
                name: self.first_name(),
                constant: self.random.percent(35),
                index: 0,
                e: self.e(Role::Constant),
            };
            self.dress(node)
        });
        names.collect()
    }

    /// Statements one inside the other, from a block at a depth down to the innermost one.
    fn deep(&mut self, depth: usize, innermost: usize) -> Stmt {
        let inner = if depth + 1 == innermost {
            self.statements(innermost, false)
        } else {
            vec![self.deep(depth + 1, innermost)]
        };
        let inner = Body::from(inner);
        let node = match self.random.below(4) {
            0 => Node::If(E::TRUE, inner, Body::default()),
            1 => Node::TryCatch {
                body: inner,
                name: None,
                catch: Body::default(),
            },
            _ => Node::Block(inner),
        };
        self.dress(node)
    }

    fn statements(&mut self, depth: usize, in_loop: bool) -> Vec<Stmt> {
        let mut statements = Vec::new();
        while self.budget > 0 {
            self.budget -= 1;
            statements.push(self.statement(depth, in_loop));
            // Inner blocks end early, so that something is left for the outer ones.
            if self.random.percent(if depth == 1 { 8 } else { 35 }) {
                break;
            }
        }
        statements
    }

    fn body(&mut self, depth: usize, in_loop: bool) -> Body {
        let statements = if depth >= MAX_DEPTH || self.random.percent(12) {
            Vec::new()
        } else {
            self.statements(depth + 1, in_loop)
        };
        Body {
            empty_row: depth < MAX_DEPTH && self.random.percent(30),
            statements,
        }
    }

    fn statement(&mut self, depth: usize, in_loop: bool) -> Stmt {
        let leaf_chance = if depth < 5 { 55 } else { 80 };
        let node = if in_loop && self.random.percent(15) {
            self.break_loop()
        } else if self.random.percent(leaf_chance) {
            self.leaf()
        } else {
            self.compound(depth, in_loop)
        };
        self.dress(node)
    }

    /// Give a statement its position, and fill what its kind does not read.
    fn dress(&mut self, node: Node) -> Stmt {
        Stmt {
            node,
            position: self.random.percent(12).then(|| odd_position(self.random)),
            unread_flags: self.random.pick(&[0, 0, 0, 2, 15]),
            unread_fields: self.random.pick(&[0, 0, 1, 65_535, 700]),
        }
    }

    fn e(&mut self, role: Role) -> E {
        self.hosts.expression(self.random, role)
    }

    fn optional_e(&mut self) -> Option<E> {
        self.random.percent(60).then(|| self.e(Role::Value))
    }

    /// One letter, at times two.
    fn name_length(&mut self) -> u16 {
        if self.random.percent(8) {
            2
        } else {
            1
        }
    }

    /// A name at its first place. Names of Var always stand there.
    fn first_name(&mut self) -> Name {
        Name {
            offset: self.random.below(LETTERS) as u16,
            length: self.name_length(),
        }
    }

    /// A name at any place.
    fn name(&mut self) -> Name {
        let length = self.name_length();
        let places = RULE_TEXT.len() + 1 - usize::from(length);
        Name {
            offset: self.random.below(places) as u16,
            length,
        }
    }

    fn optional_name(&mut self, chance: usize) -> Option<Name> {
        self.random.percent(chance).then(|| self.name())
    }

    fn index(&mut self, chance: usize) -> u16 {
        if self.random.percent(chance) {
            self.random.pick(&[1, 1, 2, 2, 3, 4, 200])
        } else {
            0
        }
    }

    fn break_loop(&mut self) -> Node {
        Node::BreakLoop {
            e: self.optional_e(),
            is_break: self.random.percent(50),
        }
    }

    fn leaf(&mut self) -> Node {
        match self.random.weighted(&[1, 4, 7, 8, 3, 3]) {
            0 => Node::Noop,
            1 => Node::Expr(self.e(Role::Value)),
            2 => Node::Assignment {
                name: self.name(),
                operator: self.hosts.operator(self.random),
                index: self.index(35),
                e: self.e(Role::Value),
            },
            3 => Node::Var {
                name: self.first_name(),
                constant: self.random.percent(35),
                index: self.index(25),
                e: self.e(Role::Value),
            },
            4 => Node::Return {
                e: self.optional_e(),
                throws: self.random.percent(65),
            },
            _ => Node::Import {
                e: self.e(Role::Path),
                name: self.optional_name(60),
            },
        }
    }

    fn compound(&mut self, depth: usize, in_loop: bool) -> Node {
        match self.random.weighted(&[3, 4, 3, 3, 5, 8]) {
            0 => Node::Block(self.body(depth, in_loop)),
            1 => Node::If(
                self.e(Role::Condition),
                self.body(depth, in_loop),
                self.body(depth, in_loop),
            ),
            2 => Node::While(self.e(Role::Condition), self.body(depth, true)),
            3 => Node::Do {
                e: self.e(Role::Condition),
                body: self.body(depth, true),
                negated: self.random.percent(50),
            },
            4 => {
                let is_empty = self.random.percent(20);
                Node::For {
                    name: self.name(),
                    counter: self.optional_name(40),
                    e: self.e(Role::Items),
                    body: self.body(if is_empty { MAX_DEPTH } else { depth }, true),
                }
            }
            _ => self.try_catch(depth, in_loop),
        }
    }

    fn try_catch(&mut self, depth: usize, in_loop: bool) -> Node {
        let body = self.body(depth, in_loop);
        let mut catch = self.body(depth, in_loop);
        if depth < MAX_DEPTH && self.random.percent(30) {
            let rethrow = Node::Return {
                e: self.random.percent(20).then_some(E::UNIT),
                throws: true,
            };
            catch.statements.push(self.dress(rethrow));
        }
        Node::TryCatch {
            body,
            name: self.optional_name(60),
            catch,
        }
    }
}
