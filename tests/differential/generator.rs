//! Random and built cases, whole and damaged. A case is kept as a list of commands until its bytes are wanted, so that damage can be done to commands as well as to bytes. Those with parts, with parked edges, with a profile, in two groups and with candidate edges have files of their own.

#[path = "candidates.rs"]
pub mod candidates;
#[path = "nested.rs"]
mod nested;
#[path = "parked.rs"]
mod parked;
#[path = "profiled.rs"]
mod profiled;
#[path = "split.rs"]
pub mod split;
pub use nested::*;
pub use parked::*;
pub use profiled::*;

/// SplitMix64: the same numbers from the same seed on every machine.
pub struct Random(pub u64);

impl Random {
    pub fn next(&mut self) -> u64 {
        self.0 = self.0.wrapping_add(0x9E37_79B9_7F4A_7C15);
        let mut z = self.0;
        z = (z ^ (z >> 30)).wrapping_mul(0xBF58_476D_1CE4_E5B9);
        z = (z ^ (z >> 27)).wrapping_mul(0x94D0_49BB_1331_11EB);
        z ^ (z >> 31)
    }

    pub fn below(&mut self, n: usize) -> usize {
        (self.next() % n as u64) as usize
    }

    /// from low to high, both included
    pub fn range(&mut self, low: usize, high: usize) -> usize {
        low + self.below(high - low + 1)
    }

    pub fn one_in(&mut self, n: usize) -> bool {
        self.below(n) == 0
    }

    pub fn byte(&mut self) -> u8 {
        self.next() as u8
    }

    pub fn pick<T: Copy>(&mut self, from: &[T]) -> T {
        from[self.below(from.len())]
    }

    /// A number that is not below a count; cut to fewer bits some are.
    pub fn beyond(&mut self, count: usize) -> usize {
        let some = self.below(count.clamp(1, 4096));
        let near = self.pick(&[count, count.saturating_add(1), 256 + some, 4096 + some]);
        let far = self.pick(&[1 << 16, 1 << 31, 1 << 32, 1 << 63]) + some;
        self.pick(&[near, near, far, usize::MAX]).max(count)
    }
}

pub type Commands = Vec<Vec<u8>>;

pub fn bytes(commands: &Commands) -> Vec<u8> {
    commands.concat()
}

fn low(n: usize) -> u8 {
    n as u8
}

fn high(n: usize) -> u8 {
    (n >> 8) as u8
}

pub fn nodes(n: usize) -> Vec<u8> {
    vec![0x01, low(n), high(n)]
}

pub fn edge(p: usize, a: usize, b: usize) -> Vec<u8> {
    vec![0x02, low(p), low(a), high(a), low(b), high(b)]
}

pub fn park(p: usize, a: usize, b: usize) -> Vec<u8> {
    vec![0x03, low(p), low(a), high(a), low(b), high(b)]
}

pub fn node_shape(a: usize) -> Vec<u8> {
    vec![0x21, low(a), high(a)]
}

pub fn target(s: usize, a: usize) -> Vec<u8> {
    vec![0x30, low(s), low(a), high(a)]
}

// ---- Random cases

/// How shape operands are chosen.
#[derive(Clone, Copy, PartialEq)]
pub enum Order {
    /// any shape
    Any,
    /// mostly the next shape, so that long walks arise
    Next,
    /// never upwards in strata, and downwards over a not: ranking finds no denial walk
    Strata,
}

/// How edges are laid.
#[derive(Clone, Copy, PartialEq)]
pub enum Layout {
    Scattered,
    Chain,
    Ring,
    Hub,
    Loops,
    /// among the first half of the nodes, so that no edge leads to the rest
    Half,
}

#[derive(Clone, Copy)]
pub struct Size {
    /// that of the 00, if there is one
    pub profile: Option<usize>,
    pub nodes: usize,
    /// 02s and 03s together
    pub edges: usize,
    /// of 16 of them, about how many are parks, or an edge once more that is parked
    pub parks: usize,
    pub properties: usize,
    pub paths: usize,
    pub shapes: usize,
    pub targets: usize,
    pub order: Order,
    pub layout: Layout,
    /// of 16 shapes, about how many are nots
    pub nots: usize,
    /// of 16 others, about how many are top, node or same
    pub grounds: usize,
    /// of 16 written shapes, about how many are 28s; at least one, if this isn't 0
    pub nested: usize,
    /// how many fresh shapes their parts make, all together
    pub fresh: usize,
}

fn random_order(r: &mut Random) -> Order {
    r.pick(&[Order::Any, Order::Any, Order::Next, Order::Strata])
}

fn random_layout(r: &mut Random) -> Layout {
    r.pick(&[Layout::Scattered, Layout::Scattered, Layout::Chain, Layout::Ring, Layout::Hub, Layout::Loops, Layout::Half])
}

pub fn small(r: &mut Random) -> Size {
    Size {
        profile: None,
        nodes: r.range(0, 5),
        edges: r.range(0, 9),
        parks: 0,
        properties: r.range(1, 3),
        paths: r.range(0, 4),
        shapes: r.range(0, 7),
        targets: r.range(0, 5),
        order: random_order(r),
        layout: random_layout(r),
        nots: r.range(0, 8),
        grounds: r.range(1, 5),
        nested: 0,
        fresh: 0,
    }
}

/// At most eight pairs, so that all assignments can be tried.
pub fn tiny(r: &mut Random) -> Size {
    let nodes = r.range(1, 4);
    Size { nodes, shapes: r.range(1, 8 / nodes), edges: r.range(1, 6), paths: r.range(0, 3), nots: r.range(2, 8), ..small(r) }
}

/// Few nots, so that shapes vouch for each other; up to 12 pairs, and with them some thousands of supported assignments at the most.
pub fn vouching(r: &mut Random) -> Size {
    let nodes = r.range(1, 4);
    Size { nodes, shapes: r.range(1, 12 / nodes), edges: r.range(2, 8), paths: r.range(1, 3), nots: r.range(0, 2), grounds: r.range(0, 4), ..small(r) }
}

pub fn medium(r: &mut Random) -> Size {
    Size {
        profile: None,
        nodes: r.range(3, 24),
        edges: r.range(3, 80),
        parks: 0,
        properties: r.range(1, 4),
        paths: r.range(1, 8),
        shapes: r.range(3, 16),
        targets: r.range(0, 20),
        order: random_order(r),
        layout: random_layout(r),
        nots: r.range(0, 8),
        grounds: r.range(1, 5),
        nested: 0,
        fresh: 0,
    }
}

/// Node counts about the width of a machine word and the limit, all else up to the limits.
pub fn large(r: &mut Random) -> Size {
    Size {
        profile: None,
        nodes: r.pick(&[31, 32, 33, 63, 64, 65, 96, 127, 128, 128]),
        edges: r.pick(&[60, 128, 300, 700, 1023, 1024]),
        parks: 0,
        properties: r.range(1, 6),
        paths: r.range(4, 16),
        shapes: r.range(8, 32),
        targets: r.pick(&[0, 1, 100, 255, 256]),
        order: random_order(r),
        layout: random_layout(r),
        nots: r.range(0, 8),
        grounds: r.range(1, 5),
        nested: 0,
        fresh: 0,
    }
}

pub fn full(r: &mut Random) -> Size {
    Size { nodes: 128, edges: 1024, paths: 16, shapes: 32, targets: 256, ..large(r) }
}

pub fn random_case(r: &mut Random, size: &Size) -> Commands {
    let mut commands = opening(size.profile, size.nodes);
    let before_edges = commands.len();
    let n = size.nodes;
    // on a wide case the edges may begin anywhere, and go round
    let first = if n > 128 { r.below(n) } else { 0 };
    let shifted = |a: usize| (a.min(n - 1) + first) % n;
    if n > 0 {
        for i in 0..size.edges {
            let p = r.below(size.properties);
            let (a, b) = match size.layout {
                Layout::Scattered => (r.below(n), r.below(n)),
                Layout::Chain if i + 1 < n => (i, i + 1),
                Layout::Ring if i < n => (i, (i + 1) % n),
                Layout::Hub => if r.one_in(2) { (0, r.below(n)) } else { (r.below(n), 0) },
                Layout::Loops if r.one_in(2) => { let a = r.below(n); (a, a) }
                Layout::Half => (r.below(n / 2 + 1), r.below(n / 2 + 1)),
                _ => (r.below(n), r.below(n)),
            };
            // chains keep one property, so that a single path follows them
            let p = if i < n && matches!(size.layout, Layout::Chain | Layout::Ring) { 0 } else { p };
            // a repeat now and then
            if size.parks > 0 && i > 0 && r.below(16) < size.parks {
                let command = random_park(r, &commands[before_edges..]);
                commands.push(command);
            } else if commands.len() > before_edges && r.one_in(12) {
                let again = commands[r.range(before_edges, commands.len() - 1)].clone();
                commands.push(again);
            } else {
                commands.push(edge(p, shifted(a), shifted(b)));
            }
        }
    }
    for i in 0..size.paths {
        // operands near the end nest deeply
        let earlier = |r: &mut Random| if r.one_in(2) { i - 1 - r.below(i.min(2)) } else { r.below(i) } as u8;
        let kind = if i == 0 || r.one_in(4) { r.range(0x10, 0x11) } else { r.range(0x12, 0x14) };
        commands.push(match kind {
            0x10 | 0x11 => vec![kind as u8, r.below(size.properties + 1) as u8],
            0x12 | 0x13 => { let left = earlier(r); vec![kind as u8, left, earlier(r)] }
            _ => vec![0x14, earlier(r)],
        });
    }
    let stratum: Vec<usize> = (0..size.shapes).map(|_| r.below(5)).collect();
    let fresh = fresh_of_each(r, size);
    for s in 0..size.shapes {
        commands.push(match fresh[s] {
            Some(fresh) => random_nested(r, size, s, &stratum, fresh),
            None => random_shape(r, size, s, &stratum),
        });
    }
    if size.shapes > 0 && n > 0 {
        for _ in 0..size.targets {
            commands.push(target(r.below(size.shapes), r.below(n)));
        }
    }
    commands.push(vec![0xFF]);
    commands
}

/// A shape for an operand of shape s that so many nots stand before; in strata there may be none.
fn operand(r: &mut Random, size: &Size, s: usize, stratum: &[usize], nots: usize) -> Option<u8> {
    match size.order {
        Order::Any => Some(r.below(size.shapes) as u8),
        Order::Next => Some(if r.one_in(5) { r.below(size.shapes) } else { (s + 1) % size.shapes } as u8),
        Order::Strata => {
            let fit: Vec<usize> = (0..size.shapes).filter(|t| stratum[*t] + nots <= stratum[s]).collect();
            (!fit.is_empty()).then(|| r.pick(&fit) as u8)
        }
    }
}

fn random_least(r: &mut Random, n: usize) -> u8 {
    (match r.below(10) {
        0 => r.range(1, 255),
        1 => r.range(1, n.clamp(1, 255)),
        2 | 3 => r.range(2, 4),
        4 => 2,
        _ => 1,
    }) as u8
}

fn random_shape(r: &mut Random, size: &Size, s: usize, stratum: &[usize]) -> Vec<u8> {
    let n = size.nodes;
    let operand = |r: &mut Random, nots: usize| operand(r, size, s, stratum, nots);
    loop {
        let kind = if r.below(16) < size.nots {
            0x24
        } else if r.below(16) < size.grounds || (size.paths == 0 && r.one_in(8)) {
            r.pick(&[0x20, 0x21, 0x25])
        } else {
            r.pick(&[0x22, 0x22, 0x23, 0x23, 0x26, 0x26, 0x27, 0x27, 0x27])
        };
        if (kind == 0x21 && n == 0) || (matches!(kind, 0x25..=0x27) && size.paths == 0) {
            continue;
        }
        let path = if size.paths > 0 { r.below(size.paths) as u8 } else { 0 };
        return match kind {
            0x20 => vec![0x20],
            0x21 => node_shape(r.below(n)),
            0x22 | 0x23 => { let left = operand(r, 0).unwrap(); vec![kind, left, operand(r, 0).unwrap()] }
            0x24 => match operand(r, 1) {
                Some(t) => vec![0x24, t],
                None => continue,
            },
            0x25 => vec![0x25, path, r.below(size.paths) as u8],
            0x26 => vec![0x26, path, operand(r, 0).unwrap()],
            _ => { let least = random_least(r, n); vec![0x27, least, path, operand(r, 0).unwrap()] }
        };
    }
}

// ---- Built cases

/// A chain of n nodes, followed by path 0; path 1 is its closing edge, and path 2 goes round the ring that both make.
fn ring(n: usize) -> Commands {
    let mut commands = opening_for(n);
    for a in 1..n {
        commands.push(edge(0, a - 1, a));
    }
    commands.push(edge(1, n - 1, 0));
    commands.extend([vec![0x10, 0], vec![0x10, 1], vec![0x12, 0, 1]]);
    commands
}

fn with_targets(mut commands: Commands, n: usize, shapes: usize) -> Commands {
    for i in 0..256 {
        commands.push(target(i % shapes, i * n / 256));
    }
    commands.push(vec![0xFF]);
    commands
}

/// Shapes that hold at one pair after another, round the ring: the second is the node 0 or the third; each later one asks for the next shape at the next node, and the last for the second. With three shapes or more.
fn positive_shapes(first: usize, count: usize) -> Commands {
    walk(first, count, |_| false)
}

/// The same with a not at every other shape: some pairs settle round by round, and where the walk closes on an odd number of nots they stay open.
fn mixed_shapes(first: usize, count: usize) -> Commands {
    walk(first, count, |s| s % 2 == 0)
}

fn walk(first: usize, count: usize, denied: impl Fn(usize) -> bool) -> Commands {
    let mut shapes = vec![node_shape(0)];
    shapes.extend(walk_from(first, first + 1, count - 1, denied));
    shapes
}

/// The walk itself, in count shapes, of which the first holds where the ground does.
fn walk_from(ground: usize, first: usize, count: usize, denied: impl Fn(usize) -> bool) -> Commands {
    let mut shapes = vec![vec![0x23, ground as u8, first as u8 + 1]];
    for s in 1..count {
        let next = (if s + 1 < count { first + s + 1 } else { first }) as u8;
        shapes.push(if denied(s + 1) { vec![0x24, next] } else { vec![0x27, 1, 2, next] });
    }
    shapes
}

/// Nots of nots, the last asking for the first at the next node of the chain: one pair after another settles, two nots a round.
fn denial_shapes(first: usize, count: usize) -> Commands {
    let mut shapes: Commands = (1..count).map(|s| vec![0x24, (first + s) as u8]).collect();
    shapes.push(vec![0x27, 1, 0, first as u8]);
    shapes
}

pub fn positive_chain(n: usize, shapes: usize) -> Commands {
    let mut commands = ring(n);
    commands.extend(positive_shapes(0, shapes));
    with_targets(commands, n, shapes)
}

pub fn mixed_chain(n: usize, shapes: usize) -> Commands {
    let mut commands = ring(n);
    commands.extend(mixed_shapes(0, shapes));
    with_targets(commands, n, shapes)
}

pub fn denial_chain(n: usize, shapes: usize) -> Commands {
    let mut commands = ring(n);
    commands.extend(denial_shapes(0, shapes));
    with_targets(commands, n, shapes)
}

/// A chain of valid pairs beside one of open pairs, whose levels count on from the last valid one.
pub fn open_chain(n: usize, positive: usize, open: usize) -> Commands {
    let mut commands = ring(n);
    commands.extend(positive_shapes(0, positive));
    let not = positive as u8;
    commands.extend([vec![0x24, not], vec![0x22, 0, not]]);
    commands.extend(walk_from(positive + 1, positive + 2, open - 2, |_| false));
    with_targets(commands, n, positive + open)
}

/// Both beside each other: a plain solver walks the positive chain again in every round.
pub fn both_chains(n: usize, positive: usize, denial: usize) -> Commands {
    let mut commands = ring(n);
    commands.extend(positive_shapes(0, positive));
    commands.extend(denial_shapes(positive, denial));
    with_targets(commands, n, positive + denial)
}

/// An open chain beside one of denials: the possible pairs of the open chain stay the same from round to round.
pub fn open_beside_denials(n: usize, open: usize, denial: usize) -> Commands {
    let mut commands = ring(n);
    commands.extend([node_shape(0), vec![0x24, 1], vec![0x22, 0, 1]]);
    commands.extend(walk_from(2, 3, open - 3, |_| false));
    commands.extend(denial_shapes(open, denial));
    with_targets(commands, n, open + denial)
}

/// The same, but the open chain may also start from the chain of denials: its possible pairs rest on something else from round to round.
pub fn open_after_denials(n: usize, open: usize, denial: usize) -> Commands {
    let mut commands = ring(n);
    commands.extend([node_shape(0), vec![0x24, 1], vec![0x22, 0, 1], vec![0x22, open as u8, 1], vec![0x23, 2, 3]]);
    commands.extend(walk_from(4, 5, open - 5, |_| false));
    commands.extend(denial_shapes(open, denial));
    with_targets(commands, n, open + denial)
}

/// Every node reaches nearly every other by a star; counts and alls range over all of them.
pub fn dense_star(r: &mut Random, n: usize) -> Commands {
    let mut commands = opening_for(n);
    for i in 0..1024 {
        let (a, b) = if i < n { (i, (i + 1) % n) } else { (r.below(n), r.below(n)) };
        commands.push(edge(i % 3, a, b));
    }
    commands.extend([vec![0x10, 0], vec![0x10, 1], vec![0x10, 2], vec![0x12, 0, 1], vec![0x12, 3, 2], vec![0x14, 4], vec![0x14, 3], vec![0x13, 4, 4]]);
    let shapes = most_shapes(n);
    for s in 0..shapes {
        let t = r.below(shapes) as u8;
        let path = r.range(4, 7) as u8;
        commands.push(match s % 6 {
            0 => vec![0x27, r.range(1, n.min(255)) as u8, path, t],
            1 => vec![0x26, path, t],
            2 => vec![0x23, t, r.below(shapes) as u8],
            3 => if s < 6 { node_shape(r.below(n)) } else { vec![0x27, 1, path, t] },
            4 => if s < 6 { vec![0x20] } else { vec![0x22, t, r.below(shapes) as u8] },
            _ => vec![0x24, t],
        });
    }
    with_targets(commands, n, shapes)
}

/// How the fittings of a feeder follow each other: one after another, round, or each behind that of half its number.
#[derive(Clone, Copy)]
pub enum Feeder {
    Chain,
    Ring,
    Tree,
}

/// A long feeder and a star path over it, which is the last of these paths; path 0 leads on, path 1 back.
pub fn feeder(n: usize, feeder: Feeder, paths: &[&[u8]]) -> Commands {
    let mut commands = opening_for(n);
    for a in 1..n {
        commands.push(edge(0, if let Feeder::Tree = feeder { a / 2 } else { a - 1 }, a));
    }
    if let Feeder::Ring = feeder {
        commands.push(edge(0, n - 1, 0));
    }
    over_feeder(commands, n, paths)
}

/// As many parks as edges, up to the limit, and all of the edge that was laid last: what looks for it goes past every other.
pub fn parked_last(n: usize) -> Commands {
    let mut commands = opening_for(n);
    commands.extend((0..512).map(|i| edge(i / n, i % n, (i + 1) % n)));
    let last = (511 / n, 511 % n, 512 % n);
    commands.extend(vec![park(last.0, last.1, last.2); 512]);
    over_feeder(commands, n, STAR)
}

/// The paths of a feeder, and shapes that ask for the fillers of the last.
fn over_feeder(mut commands: Commands, n: usize, paths: &[&[u8]]) -> Commands {
    commands.extend([vec![0x10, 0], vec![0x11, 0]]);
    commands.extend(paths.iter().map(|path| path.to_vec()));
    let last = paths.len() as u8 + 1;
    commands.extend([vec![0x20], node_shape(n - 1), vec![0x27, 1, last, 1], vec![0x26, last, 2], vec![0x24, 3], vec![0x27, 9, last, 0], vec![0x25, last, last - 1]]);
    with_targets(commands, n, 7)
}

/// The star of the path on, alone.
pub const STAR: &[&[u8]] = &[&[0x14, 0]];

/// Stars in stars: of the path on, of that or back, and so on.
pub const STARS_IN_STARS: &[&[u8]] = &[&[0x14, 0], &[0x13, 2, 0], &[0x14, 3], &[0x12, 4, 1], &[0x14, 5], &[0x14, 6]];

/// The star of two steps on and of the way back from two steps.
pub const STAR_OF_SEQUENCE: &[&[u8]] = &[&[0x13, 0, 0], &[0x13, 2, 1], &[0x12, 2, 3], &[0x14, 4]];

/// Sixteen paths, each of its forerunner twice: without a table of rows this takes time without end.
pub fn deep_paths(r: &mut Random, n: usize, kinds: &[u8]) -> Commands {
    let mut commands = opening_for(n);
    let shapes = most_shapes(n);
    for i in 0..1024 {
        commands.push(if i < n { edge(0, i, (i + 1) % n) } else { edge(1, r.below(n), r.below(n)) });
    }
    commands.push(vec![0x10, 0]);
    for i in 1..16u8 {
        let kind = r.pick(kinds);
        commands.push(if kind == 0x14 { vec![kind, i - 1] } else { vec![kind, i - 1, i - 1] });
    }
    commands.extend([vec![0x20], node_shape(0), vec![0x25, 15, 14], vec![0x25, 15, 0], vec![0x26, 15, 1]]);
    for s in 5..shapes as u8 {
        let path = r.below(16) as u8;
        commands.push(match s % 4 {
            0 => vec![0x27, 1, path, s - 1],
            1 => vec![0x26, path, s - 3],
            2 => vec![0x24, s - 2],
            _ => vec![0x23, s - 1, s - 4],
        });
    }
    with_targets(commands, n, shapes)
}

/// Pairs of shapes that deny each other, at every node: many stable assignments.
pub fn clashes(r: &mut Random, n: usize, pairs: usize) -> Commands {
    let mut commands = ring(n);
    let shapes = 2 * pairs + 2;
    for i in 0..pairs as u8 {
        commands.extend([vec![0x24, 2 * i + 1], vec![0x24, 2 * i]]);
    }
    commands.push(vec![0x27, 1, 2, r.below(2 * pairs) as u8]);
    commands.push(vec![0x22, r.below(shapes) as u8, r.below(shapes) as u8]);
    with_targets(commands, n, shapes)
}

// ---- Damage

const KNOWN: [u8; 20] = [0x00, 0x01, 0x02, 0x03, 0x10, 0x11, 0x12, 0x13, 0x14, 0x20, 0x21, 0x22, 0x23, 0x24, 0x25, 0x26, 0x27, 0x28, 0x30, 0xFF];

fn count(commands: &Commands, from: u8, to: u8) -> usize {
    commands.iter().filter(|c| (from..=to).contains(&c[0])).count()
}

/// Where a new command of a group goes: after the last one whose byte is not above it. The end, FF, stays last.
fn end_of(commands: &Commands, byte: u8) -> usize {
    commands.iter().position(|c| c[0] > byte).unwrap_or(commands.len())
}

/// Commands of these kinds that no earlier damage has cut.
fn positions(commands: &Commands, of: &[u8]) -> Vec<usize> {
    let whole = |c: &Vec<u8>| c.len() == match c[0] { 0x02 | 0x03 => 6, 0x27 | 0x30 => 4, 0x14 | 0x24 => 2, _ => 3 };
    (0..commands.len()).filter(|i| of.contains(&commands[*i][0]) && whole(&commands[*i])).collect()
}

/// Damages a sound case so that, alone, it leads to the refusal asked for (1 to 9, 20 or 22), where the case has a command that can be damaged so.
pub fn damage(r: &mut Random, commands: &mut Commands, refusal: usize) {
    damage_one(r, commands, refusal);
    // a command cut to nothing is none
    commands.retain(|c| !c.is_empty());
}

fn damage_one(r: &mut Random, commands: &mut Commands, refusal: usize) {
    let n = node_count(commands);
    let (most_nodes, most_shapes) = limits_of(commands);
    let some = |r: &mut Random, places: Vec<usize>| if places.is_empty() { None } else { Some(r.pick(&places)) };
    match refusal {
        1 => {
            let byte = loop {
                let byte = if r.one_in(2) { r.pick(&[0x04, 0x0F, 0x15, 0x1F, 0x29, 0x2A, 0x2B, 0x2F, 0x31, 0xFE]) } else { r.byte() };
                if !KNOWN.contains(&byte) {
                    break byte;
                }
            };
            let at = r.range(0, commands.len() - 1);
            commands.insert(at, vec![byte]);
        }
        2 => match r.below(6) {
            0 => { let at = r.range(1, commands.len()); commands.insert(at, nodes(n)); }
            1 => { let at = r.range(1, commands.len()); commands.insert(at, vec![0x01]); }
            2 => { commands.remove(0); }
            3 => { let (i, j) = (r.below(commands.len()), r.below(commands.len())); commands.swap(i, j); }
            4 => { let at = r.range(1, commands.len()); commands.insert(at, vec![0x00, r.below(4) as u8]); }
            _ => { let from = r.below(commands.len()); let c = commands[from].clone(); let at = r.range(0, commands.len() - 1); commands.insert(at, c); }
        },
        3 => match r.below(3) {
            0 => { commands.pop(); }
            1 => { let keep = r.below(commands.len()); commands.truncate(keep); }
            _ => {
                let keep = r.range(1, commands.len());
                commands.truncate(keep);
                let last = commands.last_mut().unwrap();
                let left = r.below(last.len());
                last.truncate(left);
            }
        },
        4 => {
            let (byte, limit, command) = match r.below(5) {
                0 => {
                    let n = r.pick(&[most_nodes + 1, most_nodes + 2, 255, 256, 257, 384, 512, 513, 0x8000, 0xFFFF]).max(most_nodes + 1);
                    let at = nodes_at(commands).min(commands.len() - 1);
                    commands[at] = nodes(n);
                    return;
                }
                1 => (0x03, 1024, edge(0, 0, 0)),
                2 => (0x14, 16, vec![0x10, 0]),
                3 => (0x28, most_shapes, vec![0x20]),
                _ => (0x30, 256, target(0, 0)),
            };
            if n == 0 && matches!(byte, 0x03 | 0x30) {
                return;
            }
            let there = match byte {
                0x03 => count(commands, 2, 3),
                0x14 => count(commands, 0x10, 0x14),
                0x28 => count(commands, 0x20, 0x28),
                _ => count(commands, 0x30, 0x30),
            };
            let at = end_of(commands, byte);
            let mut fill = vec![command; limit + 1 - there.min(limit)];
            // the one that is too many may have more wrong with it, or less of it
            match r.below(6) {
                0 => { fill.last_mut().unwrap().pop(); }
                1 if byte == 0x03 => { *fill.last_mut().unwrap() = edge(0, n, 0); }
                5 if byte == 0x03 => { *fill.last_mut().unwrap() = park(r.pick(&[0, 255]), 0, 0); }
                2 if byte == 0x14 => { *fill.last_mut().unwrap() = vec![0x14, 99]; }
                3 if byte == 0x28 => { *fill.last_mut().unwrap() = vec![0x27, 0, 99, 99]; }
                4 if byte == 0x30 => { *fill.last_mut().unwrap() = target(99, n); }
                _ => {}
            }
            commands.splice(at..at, fill);
        }
        5 => if let Some(i) = some(r, positions(commands, &[0x02, 0x03, 0x21, 0x30])) {
            // the node number itself, one of its bytes, or far off
            let bad = r.pick(&[n, n + 1, 255, 256, 0x8000, 0xFFFF]).max(n);
            let c = &mut commands[i];
            let at = match c[0] { 0x02 | 0x03 => r.pick(&[2, 4]), 0x21 => 1, _ => 2 };
            c[at] = low(bad);
            c[at + 1] = high(bad);
        },
        6 => if let Some(i) = some(r, positions(commands, &[0x12, 0x13, 0x14, 0x25, 0x26, 0x27])) {
            let own = if commands[i][0] < 0x20 { count(&commands[..i].to_vec(), 0x10, 0x14) } else { count(commands, 0x10, 0x14) };
            let c = &mut commands[i];
            let at = match c[0] { 0x12 | 0x13 | 0x25 => r.pick(&[1, 2]), 0x27 => 2, _ => 1 };
            c[at] = r.pick(&[own, own + 1, 15, 16, 255]).max(own) as u8;
            if c[0] == 0x27 && r.one_in(2) {
                c[1] = 0;
            }
        },
        7 => if let Some(i) = some(r, positions(commands, &[0x27])) {
            commands[i][1] = 0;
        },
        8 => {
            let length = r.range(1, 4);
            let first = if r.one_in(2) { 0xFF } else { r.byte() };
            let mut tail = vec![first];
            tail.extend((1..length).map(|_| r.byte()));
            commands.push(tail);
        }
        20 => park_unknown(r, commands),
        22 => unknown_profile(r, commands),
        _ => if let Some(i) = some(r, positions(commands, &[0x22, 0x23, 0x24, 0x26, 0x27, 0x30])) {
            let shapes = count(commands, 0x20, 0x28);
            let c = &mut commands[i];
            let at = match c[0] { 0x22 | 0x23 => r.pick(&[1, 2]), 0x26 => 2, 0x27 => 3, _ => 1 };
            c[at] = r.pick(&[shapes, shapes + 1, 31, 32, 255]).max(shapes) as u8;
        },
    }
}

/// Changes, inserts, removes, doubles or moves bytes anywhere.
pub fn mutate(r: &mut Random, bytes: &mut Vec<u8>) {
    for _ in 0..r.pick(&[1, 1, 1, 2, 3, 8]) {
        let n = bytes.len();
        let value = if r.one_in(2) { r.pick(&KNOWN) } else if r.one_in(2) { r.below(8) as u8 } else { r.byte() };
        match r.below(6) {
            _ if n == 0 => bytes.push(value),
            0 => { let at = r.below(n); bytes[at] = value; }
            1 => { let at = r.below(n); bytes[at] ^= 1 << r.below(8); }
            2 => { let at = r.range(0, n); bytes.insert(at, value); }
            3 => { bytes.remove(r.below(n)); }
            4 => { let at = r.below(n); bytes.truncate(at); }
            _ => {
                let from = r.below(n);
                let part = bytes[from..(from + r.range(1, 8)).min(n)].to_vec();
                let at = r.range(0, n);
                bytes.splice(at..at, part);
            }
        }
    }
}
