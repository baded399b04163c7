//! Cases built against the solver, from pieces: a chain of denials, which makes rounds; an open chain that is tied to it and so is walked again in each of them; a ladder of supports that fall one after another; and readers, which are asked again whenever a row that they read changes. A plan says what of them a case has.

use crate::generator::*;

// ---- Plans

/// Which nodes a path leads to.
#[allow(dead_code)]
#[derive(Clone, Copy, PartialEq, Debug)]
pub enum Way {
    /// the next node; from the last there is none
    On,
    /// the next node, round the ring
    Round,
    /// the next `near` nodes, round the ring
    Near,
    /// all nodes further on
    Beyond,
    /// this node and all further on
    From,
    /// all nodes
    All,
    /// where two scattered edges lead
    Scattered,
}

#[allow(dead_code)]
pub const WAYS: [Way; 7] = [Way::On, Way::Round, Way::Near, Way::Beyond, Way::From, Way::All, Way::Scattered];

/// What a shape asks of another over a path: that so many fillers have it, or all.
#[derive(Clone, Copy, PartialEq, Debug)]
pub struct Ask {
    pub way: Way,
    /// whether the path leads to lower node numbers
    pub back: bool,
    pub least: Option<usize>,
}

impl Ask {
    pub fn one(way: Way, back: bool) -> Ask {
        Ask { way, back, least: Some(1) }
    }

    pub fn all(way: Way, back: bool) -> Ask {
        Ask { way, back, least: None }
    }
}

/// How the open chain begins. What it asks leads against its walk: a step back makes it walk along ascending nodes.
#[derive(Clone, Copy, PartialEq, Debug)]
pub enum Open {
    None,
    /// at the first nodes, so many, and then through so many shapes, two or more, round the ring
    At { starts: usize, shapes: usize },
    /// where what it asks for all of has no fillers, and then through two shapes: for a way that ends
    AtEnd,
}

/// A shape beside the others, and which of their rows it reads.
#[derive(Clone, Copy, PartialEq, Debug)]
pub struct Reader {
    pub ask: Ask,
    pub row: usize,
}

#[derive(Clone, PartialEq, Debug)]
pub struct Plan {
    pub nodes: usize,
    /// shapes of the chain of denials, two or more: all but one are nots, and two nots take a round
    pub denials: usize,
    /// whether they settle along ascending nodes
    pub ascending: bool,
    /// the rows of the denials that the open chain is tied to, a shape each: it is walked again in the rounds in which one of them shrinks
    pub ties: Vec<usize>,
    pub open: Open,
    pub step: Ask,
    /// two shapes each, over one that all of them stand on
    pub rungs: usize,
    pub rung: Way,
    pub readers: Vec<Reader>,
    /// shapes are numbered by ascending keys, in the order of the pieces where these are equal
    pub keys: Vec<usize>,
}

impl Plan {
    pub fn shapes(&self) -> usize {
        let open = match self.open {
            Open::None => 0,
            Open::At { shapes, .. } => self.ties.len() + 2 + shapes,
            Open::AtEnd => self.ties.len() + 3,
        };
        let ladder = if self.rungs > 0 { 1 + 2 * self.rungs } else { 0 };
        self.denials + open + ladder + self.readers.len()
    }

    /// How many more shapes there is room for.
    pub fn room(&self) -> usize {
        most_shapes(self.nodes).saturating_sub(self.shapes())
    }

    /// Takes away one of its pieces, or from one.
    #[allow(dead_code)]
    pub fn shrink(&mut self) {
        match &mut self.open {
            _ if self.readers.pop().is_some() => {}
            _ if self.rungs > 0 => self.rungs -= 1,
            Open::At { shapes, .. } if *shapes > 2 => *shapes -= 1,
            _ if self.ties.pop().is_some() => {}
            _ if self.denials > 2 => self.denials -= 1,
            open => *open = Open::None,
        }
    }

    /// The same with the shapes numbered the other way round.
    pub fn reversed(self) -> Plan {
        Plan { keys: (0..most_shapes(self.nodes)).rev().collect(), ..self }
    }
}

/// How many nodes a near way leads to: about an eighth of all, one more than a power of two.
pub fn near(n: usize) -> usize {
    doublings(n) + 1
}

fn doublings(n: usize) -> usize {
    1 << (n / 8).max(1).ilog2().min(6)
}

// ---- Building

const CHAIN: u8 = 0;
const CLOSING: u8 = 1;
const SCATTERED: u8 = 2;
const STARTS: u8 = 3;
const NO_EDGES: u8 = 4;

struct Draft {
    nodes: usize,
    paths: Commands,
    shapes: Commands,
}

impl Draft {
    fn path(&mut self, command: Vec<u8>) -> u8 {
        let known = self.paths.iter().position(|path| *path == command);
        known.unwrap_or_else(|| {
            self.paths.push(command);
            self.paths.len() - 1
        }) as u8
    }

    fn way(&mut self, way: Way, back: bool) -> u8 {
        let step = 0x10 + back as u8;
        match way {
            Way::On => self.path(vec![step, CHAIN]),
            Way::Round => {
                let (on, closing) = (self.way(Way::On, back), self.path(vec![step, CLOSING]));
                self.path(vec![0x12, on, closing])
            }
            Way::From => {
                let on = self.way(Way::On, back);
                self.path(vec![0x14, on])
            }
            Way::Beyond => {
                let (on, from) = (self.way(Way::On, back), self.way(Way::From, back));
                self.path(vec![0x13, on, from])
            }
            Way::All => {
                let round = self.way(Way::Round, back);
                self.path(vec![0x14, round])
            }
            Way::Scattered => {
                let one = self.path(vec![step, SCATTERED]);
                self.path(vec![0x13, one, one])
            }
            Way::Near => self.near(back),
        }
    }

    /// The next node, and from there a step or none, as often as doubling makes it.
    fn near(&mut self, back: bool) -> u8 {
        let round = self.way(Way::Round, back);
        let nowhere = self.path(vec![0x10, NO_EDGES]);
        let here = self.path(vec![0x14, nowhere]);
        let mut up_to = self.path(vec![0x12, here, round]);
        for _ in 0..doublings(self.nodes).ilog2() {
            up_to = self.path(vec![0x13, up_to, up_to]);
        }
        self.path(vec![0x13, round, up_to])
    }

    fn shape(&mut self, command: Vec<u8>) -> u8 {
        self.shapes.push(command);
        self.shapes.len() as u8 - 1
    }

    fn ask(&mut self, ask: Ask, row: u8) -> u8 {
        let path = self.way(ask.way, ask.back);
        self.shape(match ask.least {
            Some(least) => vec![0x27, least.clamp(1, 255) as u8, path, row],
            None => vec![0x26, path, row],
        })
    }

    /// Where the next shape will be, for a rule that names it before it is there.
    fn next(&self, further: usize) -> u8 {
        (self.shapes.len() + further) as u8
    }

    fn denials(&mut self, count: usize, back: bool) {
        for _ in 1..count {
            let denied = self.next(1);
            self.shape(vec![0x24, denied]);
        }
        self.ask(Ask::one(Way::On, back), 0);
    }

    /// A shape that is open wherever no row is valid, and has to be looked at again whenever one shrinks: not that shape or one of the rows. The rows are of the denials, the first shapes.
    fn tied(&mut self, rows: &[usize]) -> u8 {
        let denied = self.next(rows.len());
        let open = self.shape(vec![0x24, denied]);
        let mut either = open;
        for row in rows {
            either = self.shape(vec![0x23, either, *row as u8]);
        }
        either
    }

    fn open(&mut self, open: Open, step: Ask, ties: &[usize]) {
        match open {
            Open::None => {}
            Open::At { shapes, .. } => {
                let tied = self.tied(ties);
                let loops = self.path(vec![0x10, STARTS]);
                let start = self.shape(vec![0x27, 1, loops, tied]);
                let last = self.next(shapes - 1);
                let mut row = self.shape(vec![0x23, start, last]);
                for _ in 1..shapes {
                    row = self.ask(step, row);
                }
            }
            Open::AtEnd => {
                let tied = self.tied(ties);
                let asked = self.next(1);
                let row = self.shape(vec![0x22, tied, asked]);
                self.ask(step, row);
            }
        }
    }

    /// What the ladder stands on has a support at every node from its own on, which the denials take away from the far end. Each rung is a walk towards that end, as far as the rung below it holds.
    fn ladder(&mut self, rungs: usize, way: Way, back: bool) {
        if rungs == 0 {
            return;
        }
        let mut below = self.ask(Ask::one(Way::From, back), 0);
        for _ in 0..rungs {
            let asked = self.next(1);
            below = self.shape(vec![0x22, below, asked]);
            self.ask(Ask::all(way, !back), below);
        }
    }

    fn readers(&mut self, readers: &[Reader]) {
        let rows = self.shapes.len();
        for reader in readers {
            self.ask(reader.ask, (reader.row % rows) as u8);
        }
    }
}

/// The ring, a loop at each node where the open chain starts, and scattered edges as far as there is room, if any shape asks for them.
fn edges(n: usize, starts: usize, scattered: bool) -> Commands {
    let mut edges: Commands = (1..n).map(|a| edge(CHAIN as usize, a - 1, a)).collect();
    edges.push(edge(CLOSING as usize, n - 1, 0));
    edges.extend((0..starts.min(n)).map(|a| edge(STARTS as usize, a, a)));
    if scattered {
        let r = &mut Random(n as u64);
        let room = 1024 - edges.len();
        edges.extend((0..room).map(|i| edge(SCATTERED as usize, i % n, r.below(n))));
    }
    edges
}

/// Where in a shape's command its shape operands stand.
pub fn shape_operands(shape: &[u8]) -> &'static [usize] {
    match shape[0] {
        0x22 | 0x23 => &[1, 2],
        0x24 => &[1],
        0x26 => &[2],
        0x27 => &[3],
        _ => &[],
    }
}

/// A shape's rule with its operands renamed.
fn renamed(shape: &[u8], name: &[u8]) -> Vec<u8> {
    let mut shape = shape.to_vec();
    shape_operands(&shape).iter().for_each(|at| shape[*at] = name[shape[*at] as usize]);
    shape
}

/// The shapes in the order of their keys.
fn numbered(shapes: &Commands, keys: &[usize]) -> Commands {
    let mut order: Vec<usize> = (0..shapes.len()).collect();
    order.sort_by_key(|s| keys.get(*s).copied().unwrap_or(*s));
    let mut name = vec![0; shapes.len()];
    order.iter().enumerate().for_each(|(number, s)| name[*s] = number as u8);
    order.iter().map(|s| renamed(&shapes[*s], &name)).collect()
}

/// The case of a plan; none where it has too many shapes or paths.
pub fn built(plan: &Plan) -> Option<Vec<u8>> {
    let n = plan.nodes;
    let mut draft = Draft { nodes: n, paths: vec![], shapes: vec![] };
    draft.denials(plan.denials, plan.ascending);
    let ties: Vec<usize> = plan.ties.iter().map(|row| row % plan.denials).collect();
    draft.open(plan.open, plan.step, &ties);
    draft.ladder(plan.rungs, plan.rung, plan.ascending);
    draft.readers(&plan.readers);
    let starts = if let Open::At { starts, .. } = plan.open { starts } else { 0 };
    let scattered = draft.paths.iter().any(|path| path[0] <= 0x11 && path[1] == SCATTERED);
    let shapes = draft.shapes.len();
    if draft.paths.len() > 16 || shapes > most_shapes(n) {
        return None;
    }
    let profile = PROFILES.iter().position(|(most, _)| n <= *most).filter(|number| *number > 0);
    let mut commands = opening(profile, n);
    commands.extend(edges(n, starts, scattered));
    commands.extend(draft.paths);
    commands.extend(numbered(&draft.shapes, &plan.keys));
    commands.extend((0..256).map(|i| target(i % shapes, i * n / 256)));
    commands.push(vec![0xFF]);
    Some(bytes(&commands))
}

// ---- The plans that are measured

/// Denials alone; what is left of the shapes is for the rest.
fn denials(n: usize, denials: usize) -> Plan {
    Plan {
        nodes: n,
        denials,
        ascending: false,
        ties: vec![],
        open: Open::None,
        step: Ask::one(Way::Round, true),
        rungs: 0,
        rung: Way::On,
        readers: vec![],
        keys: vec![],
    }
}

/// Denials with a tie to every row of them that shrinks, every other one: 9 shapes and 4 ties of 32 shapes, 5 and 2 of 16, 3 and 1 of 8. They are an odd number, so that no such row ever becomes valid.
fn tied_denials(n: usize) -> Plan {
    let ties = most_shapes(n) / 8;
    Plan { ties: (0..ties).map(|i| 2 * i).collect(), ..denials(n, 2 * ties + 1) }
}

/// An open chain that starts at one node, tied to denials, in all the shapes that are left. With a shape less where it would close before it has been everywhere.
pub fn open_from_one(n: usize, back: bool) -> Plan {
    let plan = tied_denials(n);
    let shapes = (plan.room() - plan.ties.len() - 2) / 2 * 2;
    Plan { open: Open::At { starts: 1, shapes }, step: Ask::one(Way::Round, back), ..plan }
}

/// An open chain in two shapes, tied to denials, and readers of it in all that are left.
pub fn read(n: usize, back: bool, asks: &[Ask]) -> Plan {
    with_readers(Plan { open: Open::AtEnd, step: Ask::all(Way::On, back), ..tied_denials(n) }, asks)
}

/// An open chain that counts near fillers, all of which it needs, and readers that count them too.
pub fn fused(n: usize, back: bool) -> Plan {
    let step = Ask { way: Way::Near, back, least: Some(near(n)) };
    with_readers(Plan { open: Open::At { starts: near(n), shapes: 2 }, step, ..tied_denials(n) }, &[step])
}

/// Readers of the last row, by turns.
fn with_readers(plan: Plan, asks: &[Ask]) -> Plan {
    let row = plan.shapes() - 1;
    Plan { readers: (0..plan.room()).map(|i| Reader { ask: asks[i % asks.len()], row }).collect(), ..plan }
}

/// Three denials, whose first row shrinks in every round, and readers that count it, each up to another number.
pub fn watchers(n: usize) -> Plan {
    let plan = denials(n, 3);
    let count = plan.room();
    let ask = |i: usize| Ask { way: if i % 2 == 0 { Way::All } else { Way::From }, back: false, least: Some((i + 1) * n / (count + 1)) };
    Plan { readers: (0..count).map(|i| Reader { ask: ask(i), row: 0 }).collect(), ..plan }
}

/// Three denials, since a ladder shrinks only with their first row, and rungs in all that are left.
pub fn ladder(n: usize, ascending: bool) -> Plan {
    let plan = Plan { ascending, rung: Way::Beyond, ..denials(n, 3) };
    Plan { rungs: (plan.room() - 1) / 2, ..plan }
}

/// What is asked of an open chain lightly: one filler.
pub fn light(back: bool) -> Vec<Ask> {
    vec![Ask::one(Way::Round, back)]
}

/// And heavily: all nodes, or all but one.
pub fn heavy(n: usize, back: bool) -> Vec<Ask> {
    vec![Ask { way: Way::All, back, least: Some(n - 1) }, Ask::all(Way::All, back)]
}

/// And in vain: two fillers where there is one. No node ever drops out, so that each time all are asked.
pub fn vain(back: bool) -> Vec<Ask> {
    vec![Ask { way: Way::Round, back, least: Some(2) }]
}
