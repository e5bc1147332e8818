//! Random contracts: statements of every kind around random expressions.

use super::expressions::{atoms, Maker, Part, LEAST};
use super::rng::Rng;
use super::values::TWO_NUMBERS;
use crate::tree::*;

/// The room in which an if with something in its blocks is worth making.
const FORK: usize = size::IF_ELSE + LEAST + 2 * (size::ITEM + LEAST);

/// What most paths of a contract are meant to be.
#[derive(Clone, Copy, Debug, PartialEq, Eq)]
pub enum Plan {
    Any,
    Gated,
    Dead,
    Useless,
    Open,
    /// A path with more atoms than are searched.
    Crowd,
    /// A path at a bound or one past it, which ends at once.
    Edge,
}

impl Plan {
    pub const ALL: [Plan; 7] = [Plan::Any, Plan::Gated, Plan::Dead, Plan::Useless, Plan::Open, Plan::Crowd, Plan::Edge];

    /// A plan, so that every verdict has its share.
    pub fn draw(rng: &mut Rng) -> Plan {
        const WEIGHTS: [usize; 7] = [24, 30, 12, 16, 10, 6, 2];
        let list: Vec<(usize, Plan)> = WEIGHTS.into_iter().zip(Plan::ALL).collect();
        rng.weighted(&list)
    }

    /// Its name in a case's kind.
    pub fn name(self) -> &'static str {
        match self {
            Plan::Any => "any",
            Plan::Gated => "gated",
            Plan::Dead => "dead",
            Plan::Useless => "useless",
            Plan::Open => "open",
            Plan::Crowd => "crowd",
            Plan::Edge => "edge",
        }
    }

    /// The plan of one path in a contract with this plan.
    fn of_path(self, rng: &mut Rng) -> Plan {
        let own = match self {
            Plan::Any | Plan::Dead | Plan::Edge => 100,
            Plan::Gated => 90,
            Plan::Useless | Plan::Open | Plan::Crowd => 65,
        };
        match rng.percent(own) {
            true => self,
            false => rng.weighted(&[(3, Plan::Gated), (1, Plan::Dead)]),
        }
    }
}

/// What a random contract may be.
#[derive(Clone, Copy, Debug)]
pub struct Shape {
    pub mode: u8,
    /// The most atoms of a path that may have to be searched.
    pub most_atoms: usize,
    /// The greatest size of the image.
    pub most_bytes: usize,
    pub plan: Plan,
}

/// A contract whose image can be read; no path that has to be searched has more atoms than the shape allows.
pub fn random(rng: &mut Rng, shape: &Shape) -> Contract {
    let statements = match shape.plan {
        Plan::Edge if shape.most_bytes >= 1200 => edge(rng, shape.mode),
        _ => Lists::new(rng, shape).top(),
    };
    Contract { mode: shape.mode, statements }
}

/// One path at a bound or one past it; a search that it needs has two trials at most.
fn edge(rng: &mut Rng, mode: u8) -> Vec<Stmt> {
    let mut make = Maker::new(rng, mode);
    let expression = match make.rng.below(6) {
        0 => make.many_frees(20, op::OR),
        1 => make.many_frees(21, op::OR),
        2 => make.many_sigs(22, op::OR),
        3 => make.many_sigs(23, op::OR),
        4 => make.many_sigs(23, op::AND),
        _ => make.many_frees(21, op::AND),
    };
    let location = make.locations.next(make.rng);
    vec![Stmt { location, kind: StmtKind::Return(expression) }]
}

/// What is left on the way to a return.
#[derive(Clone, Copy)]
struct Way {
    room: usize,
    levels: usize,
    atoms: usize,
    /// What the path already is by its conditions and verifies.
    settled: bool,
}

/// Makes statement lists; one for each contract.
struct Lists<'a> {
    make: Maker<'a>,
    shape: Shape,
    /// How many of a hundred lists end in an if.
    forks: usize,
    /// How many hundredths of an if's room its then block may take.
    then_share: usize,
    /// How many of a hundred lists begin with a locktime or verify, and go on with the next.
    prelude: usize,
    /// The most bytes of most conditions and verifies; if they are few there are many paths.
    condition_room: usize,
    statements: usize,
    nodes: usize,
}

impl<'a> Lists<'a> {
    /// A contract's habits from the stream.
    fn new(rng: &'a mut Rng, shape: &Shape) -> Lists<'a> {
        let forks = rng.weighted(&[(1, 0), (2, 35), (3, 70), (4, 100)]);
        let then_share = rng.weighted(&[(3, 50), (1, 8), (1, 92), (2, 30)]);
        let prelude = rng.pick(&[0, 20, 40, 70]);
        let condition_room = rng.pick(&[LEAST, 40, 110, 110]);
        let make = Maker::new(rng, shape.mode);
        Lists { make, shape: *shape, forks, then_share, prelude, condition_room, statements: most::STATEMENTS, nodes: most::NODES }
    }

    /// The top list.
    fn top(&mut self) -> Vec<Stmt> {
        let most = self.shape.most_bytes.saturating_sub(size::HEAD);
        let crowd = if self.shape.plan == Plan::Crowd { 9 * most / 10 } else { most / 20 };
        let room = self.make.rng.between(crowd, most);
        let levels = most::STATEMENT_LEVEL;
        let atoms = match self.make.rng.percent(50) {
            true => self.shape.most_atoms,
            false => self.make.rng.between(0, self.shape.most_atoms),
        };
        self.list(Way { room, levels, atoms, settled: false })
    }

    /// The next statement's location.
    fn begin(&mut self) -> Location {
        self.statements -= 1;
        self.make.locations.next(self.make.rng)
    }

    /// A statement at the next location.
    fn put(&mut self, kind: StmtKind) -> Stmt {
        Stmt { location: self.begin(), kind }
    }

    /// A list: locktimes and verifies, then a return, an if or nothing, then what no path reaches.
    fn list(&mut self, mut way: Way) -> Vec<Stmt> {
        let mut list = vec![];
        if way.levels == 0 {
            return list;
        }
        while self.statements > 1 && way.room >= size::LOCKTIME && self.make.rng.percent(self.prelude) {
            list.extend(self.step(&mut way));
        }
        let end = self.end(&mut way);
        let ended = end.is_some();
        list.extend(end);
        if ended && self.make.rng.percent(8) {
            list.extend(self.unreached(&mut way));
        }
        list
    }

    /// A locktime or verify.
    fn step(&mut self, way: &mut Way) -> Option<Stmt> {
        if self.make.rng.percent(35) {
            way.room -= size::LOCKTIME;
            return Some(self.locktime());
        }
        let part = self.shared(self.part(way, size::ITEM)?);
        let (expression, settles) = self.gathered(part, way.settled);
        way.settled |= settles;
        self.take(way, size::ITEM, &expression);
        Some(self.put(StmtKind::Verify(expression)))
    }

    /// A locktime with any operand.
    fn locktime(&mut self) -> Stmt {
        let any = self.make.rng.number() as i64;
        let operand = self.make.rng.pick(&[0, 1, -1, 500_000_000, i64::MAX, i64::MIN, any, any >> 40]);
        let op = self.make.rng.below(ops::LOCKTIME as usize) as u8;
        self.put(StmtKind::Locktime { op, operand })
    }

    /// A return, an if, or nothing.
    fn end(&mut self, way: &mut Way) -> Option<Stmt> {
        if way.room >= FORK && self.statements > 2 && self.make.rng.percent(self.forks) {
            return self.branches(way);
        }
        if self.make.rng.percent(6) {
            return None;
        }
        let part = self.part(way, size::ITEM)?;
        self.make.change_habit();
        let expression = self.result(part, way.settled);
        self.take(way, size::ITEM, &expression);
        Some(self.put(StmtKind::Return(expression)))
    }

    /// An if with its blocks.
    fn branches(&mut self, way: &mut Way) -> Option<Stmt> {
        let part = self.shared(self.part(way, size::IF_ELSE)?);
        let (condition, then_settled, else_settled) = self.condition(part, way.settled);
        self.take(way, size::IF_ELSE, &condition);
        let location = self.begin();
        let alone = self.make.rng.percent(15);
        let then_room = if alone { way.room } else { way.room * self.then_share / 100 };
        let inner = Way { levels: way.levels - 1, ..*way };
        let then = self.list(Way { room: then_room, settled: then_settled, ..inner });
        way.room -= list_size(&then);
        let otherwise = (!alone).then(|| self.list(Way { room: way.room, settled: else_settled, ..inner }));
        way.room -= otherwise.as_deref().map_or(0, list_size);
        Some(Stmt { location, kind: StmtKind::If { condition, then, otherwise } })
    }

    /// A condition, and whether it settles the then side or the else side.
    fn condition(&mut self, part: Part, settled: bool) -> (Expr, bool, bool) {
        if settled || part.room < 2 * LEAST || self.make.rng.percent(60) {
            let (condition, settles) = self.gathered(part, settled);
            return (condition, settled || settles, settled);
        }
        let inner = Part { room: part.room - LEAST, levels: part.levels - 1, ..part };
        let (operand, settles) = self.gathered(inner, settled);
        let location = self.make.locations.next(self.make.rng);
        (Expr::one(One::Unary(op::NOT), operand).at(location), false, settles)
    }

    /// A condition or verify, and whether it settles what the path is.
    fn gathered(&mut self, part: Part, settled: bool) -> (Expr, bool) {
        self.make.change_habit();
        let part = Part { sigs: self.shape.plan != Plan::Open, ..part };
        if settled || self.make.rng.percent(75) {
            return (self.make.formula(part), false);
        }
        match self.shape.plan {
            Plan::Gated => (self.make.gate(part), true),
            Plan::Dead => (self.make.falsehood(part), true),
            _ => (self.make.formula(part), false),
        }
    }

    /// The expression of a return.
    fn result(&mut self, part: Part, settled: bool) -> Expr {
        let plan = match settled {
            true => Plan::Any,
            false => self.shape.plan.of_path(self.make.rng),
        };
        match plan {
            Plan::Any | Plan::Edge => self.make.formula(part),
            Plan::Gated => self.make.gate(part),
            Plan::Dead => self.make.dead(part),
            Plan::Useless => self.make.ungated(part),
            Plan::Open => self.make.formula(Part { sigs: false, ..part }),
            Plan::Crowd => self.crowd(part),
        }
    }

    /// More Free atoms than security searches, or more atoms than liveness does, if there is room.
    fn crowd(&mut self, part: Part) -> Expr {
        let op = self.make.rng.weighted(&[(3, op::AND), (1, op::OR)]);
        let crowd = match self.make.rng.percent(50) {
            true => {
                let count = self.make.rng.between(21, 26);
                self.make.many_frees(count, op)
            }
            false => {
                let count = self.make.rng.between(23, 28);
                self.make.many_sigs(count, op)
            }
        };
        match crowd.size() <= part.room {
            true => crowd,
            false => self.make.gate(part),
        }
    }

    /// Statements after a return or an if, with overflows among them.
    fn unreached(&mut self, way: &mut Way) -> Vec<Stmt> {
        let before = std::mem::replace(&mut self.make.overflowing, true);
        let mut list = vec![];
        if self.part(way, size::ITEM).is_some_and(|part| part.room >= TWO_NUMBERS) && self.make.rng.percent(70) {
            let expression = self.make.overflow();
            self.take(way, size::ITEM, &expression);
            list.push(self.put(StmtKind::Verify(expression)));
        }
        list.extend(self.list(*way));
        self.make.overflowing = before;
        list
    }

    /// What an expression may take on a way, beside `outside` bytes of its statement; every node takes an item's bytes at least.
    fn part(&self, way: &Way, outside: usize) -> Option<Part> {
        let room = way.room.checked_sub(outside)?.min(self.nodes * size::ITEM);
        let part = Part { room, levels: most::EXPRESSION_LEVEL, atoms: way.atoms, sigs: true };
        (room >= LEAST && self.statements > 0).then_some(part)
    }

    /// A share of what an expression may take; most often a small one, and one atom stays for the return.
    fn shared(&mut self, part: Part) -> Part {
        let least = part.room.min(LEAST);
        let most = match self.make.rng.below(10) {
            0..=7 => part.room.min(self.condition_room),
            8 => part.room / 3,
            _ => part.room / 2,
        };
        let atoms = part.atoms.saturating_sub(1).min(self.make.rng.pick(&[0, 1, 2, 3, 4, 6]));
        Part { room: self.make.rng.between(least, most.max(least)), atoms, ..part }
    }

    /// Takes a statement with an expression from what is left.
    fn take(&mut self, way: &mut Way, outside: usize, expression: &Expr) {
        way.room -= outside + expression.size();
        way.atoms = way.atoms.saturating_sub(atoms(expression));
        self.nodes -= expression.nodes();
    }
}
