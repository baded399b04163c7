//! Rules inside rules: document 02, point 2, sentence by sentence. It belongs to the reference, beside document 01's shapes.

use super::{fault_of_operands, operands, Case, Operand, Operand::*, Shape};

// ---- A part and its inner parts

/// What a 28 holds, and each part inside it.
#[derive(Clone, PartialEq, Eq, Debug)]
pub enum Part {
    Top,
    Node(usize),
    And(Box<Part>, Box<Part>),
    Or(Box<Part>, Box<Part>),
    Not(Box<Part>),
    Same(usize, usize),
    All(usize, Box<Part>),
    AtLeast(usize, usize, Box<Part>),
    /// 29, a named shape
    Named(usize),
    /// 2A
    AtMost(usize, usize, Box<Part>),
}

/// The operands of a part that are no parts, and how many inner parts it opens behind them.
fn head(byte: u8) -> Option<(&'static [Operand], usize)> {
    Some(match byte {
        0x20 => (&[], 0),
        0x21 => (&[NodeNumber], 0),
        0x22 | 0x23 => (&[], 2),
        0x24 => (&[], 1),
        0x25 => (&[PathNumber, PathNumber], 0),
        0x26 => (&[PathNumber], 1),
        0x27 => (&[Least, PathNumber], 1),
        0x29 => (&[ShapeNumber], 0),
        0x2A => (&[Most, PathNumber], 1),
        _ => return None,
    })
}

impl Part {
    /// The part of a byte, from its operands that are no parts and its inner parts.
    fn of(byte: u8, operands: &[usize], inner: Vec<Part>) -> Part {
        let o = |i: usize| operands[i];
        let mut inner = inner.into_iter().map(Box::new);
        let mut next = || inner.next().unwrap();
        match byte {
            0x20 => Part::Top,
            0x21 => Part::Node(o(0)),
            0x22 => Part::And(next(), next()),
            0x23 => Part::Or(next(), next()),
            0x24 => Part::Not(next()),
            0x25 => Part::Same(o(0), o(1)),
            0x26 => Part::All(o(0), next()),
            0x27 => Part::AtLeast(o(0), o(1), next()),
            0x29 => Part::Named(o(0)),
            _ => Part::AtMost(o(0), o(1), next()),
        }
    }

    /// The inner parts in order. That of a 2A is the at least whose not it is.
    pub fn inner(&self) -> Vec<Part> {
        match self {
            Part::And(x, y) | Part::Or(x, y) => vec![*x.clone(), *y.clone()],
            Part::Not(x) | Part::All(_, x) | Part::AtLeast(_, _, x) => vec![*x.clone()],
            Part::AtMost(n, p, x) => vec![Part::AtLeast(n + 1, *p, x.clone())],
            Part::Top | Part::Node(_) | Part::Same(..) | Part::Named(_) => vec![],
        }
    }

    /// How deep its parts go, the outermost being 1.
    pub fn depth(&self) -> usize {
        1 + match self {
            Part::And(x, y) | Part::Or(x, y) => x.depth().max(y.depth()),
            Part::Not(x) | Part::All(_, x) | Part::AtLeast(_, _, x) | Part::AtMost(_, _, x) => x.depth(),
            Part::Top | Part::Node(_) | Part::Same(..) | Part::Named(_) => 0,
        }
    }

    /// The shapes that it names, for 9.
    pub fn names(&self) -> Vec<usize> {
        match self {
            Part::Named(shape) => vec![*shape],
            _ => self.inner().iter().flat_map(Part::names).collect(),
        }
    }
}

/// A shape command is a part too: its inner parts are all named.
pub(super) fn of_command(byte: u8, kinds: &[Operand], operands: &[usize]) -> Part {
    let (shapes, others): (Vec<_>, Vec<_>) = kinds.iter().zip(operands).partition(|(kind, _)| **kind == ShapeNumber);
    let others: Vec<usize> = others.into_iter().map(|(_, operand)| *operand).collect();
    Part::of(byte, &others, shapes.into_iter().map(|(_, shape)| Part::Named(*shape)).collect())
}

// ---- Checks

/// The part that opens at an offset, so deep, and the offset behind it; or the number of the first part at fault. Each is checked as it opens, before its inner parts.
pub fn open(case: &Case, bytes: &[u8], at: usize, depth: usize) -> Result<(Part, usize), usize> {
    if depth > 8 {
        return Err(18);
    }
    let byte = *bytes.get(at).ok_or(3usize)?;
    let (kinds, count) = head(byte).ok_or(1usize)?;
    let (operands, mut next) = operands(bytes, at + 1, kinds).ok_or(3usize)?;
    if let Some(number) = fault_of_operands(case, kinds, &operands) {
        return Err(number);
    }
    let mut inner = Vec::new();
    for _ in 0..count {
        let (part, behind) = open(case, bytes, next, depth + 1)?;
        inner.push(part);
        next = behind;
    }
    Ok((Part::of(byte, &operands, inner), next))
}

// ---- The expansion

/// The written shapes, each with its outermost part's rule, and after all of them the fresh ones.
pub fn expansion(written: &[Part]) -> Vec<Shape> {
    let mut fresh = Fresh { first: written.len(), shapes: Vec::new() };
    let mut shapes: Vec<Shape> = written.iter().map(|part| fresh.rule(part)).collect();
    shapes.extend(fresh.shapes);
    shapes
}

/// The fresh shapes so far, and the number of the first.
struct Fresh {
    first: usize,
    shapes: Vec<Shape>,
}

impl Fresh {
    /// The rule of a shape that stands for a part. Only an outermost 29 has a shape to stand for it.
    fn rule(&mut self, part: &Part) -> Shape {
        match part {
            Part::Top => Shape::Top,
            Part::Node(a) => Shape::Node(*a),
            Part::And(x, y) => { let left = self.number(x); Shape::And(left, self.number(y)) }
            Part::Or(x, y) => { let left = self.number(x); Shape::Or(left, self.number(y)) }
            Part::Not(x) => Shape::Not(self.number(x)),
            Part::Same(p, q) => Shape::Same(*p, *q),
            Part::All(p, x) => Shape::All(*p, self.number(x)),
            Part::AtLeast(n, p, x) => Shape::AtLeast(*n, *p, self.number(x)),
            Part::Named(s) => Shape::Or(*s, *s),
            Part::AtMost(n, p, x) => Shape::Not(self.number(&Part::AtLeast(n + 1, *p, x.clone()))),
        }
    }

    /// The number of a deeper part: the named shape's, or that of a fresh shape, which has it before the parts inside it open.
    fn number(&mut self, part: &Part) -> usize {
        if let Part::Named(shape) = part {
            return *shape;
        }
        let place = self.shapes.len();
        self.shapes.push(Shape::Top);
        self.shapes[place] = self.rule(part);
        self.first + place
    }
}

// ---- Values without the expansion

impl Case {
    /// The part that each shape of the expansion stands for: the written ones, then all deeper ones but 29s as they open.
    pub fn parts(&self) -> Vec<Part> {
        let mut parts = self.written.clone();
        for part in &self.written {
            parts.extend(deeper(part));
        }
        parts
    }

    /// The value of every pair by recursion on its shape's part.
    pub fn values_by_parts(&self, values: &[u8]) -> Vec<u8> {
        self.parts().iter().flat_map(|part| self.part_values(part, values)).collect()
    }

    /// A part's values by node; only the shapes that it names are read in the given values.
    fn part_values(&self, part: &Part, values: &[u8]) -> Vec<u8> {
        let inner: Vec<Vec<u8>> = part.inner().iter().map(|part| self.part_values(part, values)).collect();
        let of_fillers = |p: usize, a: usize| self.fillers(p, a).iter().map(|b| inner[0][*b]);
        let value = |a: usize| match part {
            Part::Top => 2,
            Part::Node(b) => if a == *b { 2 } else { 0 },
            Part::And(..) => inner[0][a].min(inner[1][a]),
            Part::Or(..) => inner[0][a].max(inner[1][a]),
            Part::Not(_) | Part::AtMost(..) => 2 - inner[0][a],
            Part::Same(p, q) => if self.fillers(*p, a) == self.fillers(*q, a) { 2 } else { 0 },
            Part::All(p, _) => of_fillers(*p, a).min().unwrap_or(2),
            // the value that so many fillers reach
            Part::AtLeast(n, p, _) => (1..=2).filter(|v| of_fillers(*p, a).filter(|w| w >= v).count() >= *n).max().unwrap_or(0),
            Part::Named(s) => values[self.pair(*s, a)],
        };
        (0..self.nodes).map(value).collect()
    }
}

fn deeper(part: &Part) -> Vec<Part> {
    let opened = |part: Part| { let inside = deeper(&part); [vec![part], inside].concat() };
    part.inner().into_iter().filter(|part| !matches!(part, Part::Named(_))).flat_map(opened).collect()
}
