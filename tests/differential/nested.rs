//! Random 28s of all depths and sizes, and damage to their parts (document 02, point 2).

use super::*;

// ---- Sizes

/// Up to 32 shapes in all, few of them written.
pub fn small_nested(r: &mut Random) -> Size {
    let shapes = r.range(1, 7);
    Size { shapes, nested: r.range(4, 16), fresh: r.pick(&[0, 1, 2, 3, 4, 5, 6, 8, 10, 14]), ..small(r) }
}

/// At most eight pairs of written and fresh shapes, so that all assignments can be tried.
pub fn tiny_nested(r: &mut Random) -> Size {
    let size = tiny(r);
    let shapes = r.range(1, size.shapes);
    Size { shapes, nested: r.range(8, 16), fresh: size.shapes - shapes, ..size }
}

pub fn medium_nested(r: &mut Random) -> Size {
    let shapes = r.range(2, 14);
    Size { shapes, nested: r.range(4, 16), fresh: r.range(2, 18), ..medium(r) }
}

/// Exactly as many shapes as there can be, all else large.
pub fn full_nested(r: &mut Random) -> Size {
    let shapes = r.range(1, 31);
    Size { shapes, nested: r.range(4, 16), fresh: 32 - shapes, ..large(r) }
}

/// About as many shapes as there can be, or far too many.
pub fn over_nested(r: &mut Random) -> Size {
    let shapes = r.range(1, 32);
    let over = r.pick(&[0, 0, 1, 1, 2, 10, 100, 200]);
    Size { shapes, nested: r.range(2, 16), fresh: 32 - shapes + over, ..small(r) }
}

// ---- Random parts

/// How many fresh shapes the 28 in a shape's place makes; none for a shape command of its own.
pub(super) fn fresh_of_each(r: &mut Random, size: &Size) -> Vec<Option<usize>> {
    let mut fresh = vec![None; size.shapes];
    if size.nested == 0 || size.shapes == 0 {
        return fresh;
    }
    let first = r.below(size.shapes);
    let nested: Vec<usize> = (0..size.shapes).filter(|s| *s == first || r.below(16) < size.nested).collect();
    nested.iter().for_each(|s| fresh[*s] = Some(0));
    let all_at_once = r.one_in(3);
    for _ in 0..size.fresh {
        let s = if all_at_once { first } else { r.pick(&nested) };
        fresh[s] = fresh[s].map(|made| made + 1);
    }
    fresh
}

/// The 28 of shape s, with so many fresh shapes.
pub(super) fn random_nested(r: &mut Random, size: &Size, s: usize, stratum: &[usize], fresh: usize) -> Vec<u8> {
    let mut command = vec![0x28];
    let name = |r: &mut Random, nots: usize| operand(r, size, s, stratum, nots);
    Nested { size, name: &name }.part(r, 1, 0, fresh + 1, &mut command);
    command
}

/// The most shapes that a part so deep can make with all that is inside it.
fn most_made(depth: usize) -> usize {
    (1 << (9 - depth)) - 1
}

struct Nested<'a> {
    size: &'a Size,
    /// a shape for a 29 that so many nots stand before, if there is one
    name: &'a dyn Fn(&mut Random, usize) -> Option<u8>,
}

impl Nested<'_> {
    /// A part so deep, behind so many nots, that makes exactly so many shapes with all that is inside it; none makes a 29.
    fn part(&self, r: &mut Random, depth: usize, nots: usize, makes: usize, out: &mut Vec<u8>) {
        if makes == 0 || (depth == 1 && makes == 1 && r.one_in(8)) {
            out.extend([0x29, (self.name)(r, nots).unwrap()]);
            return;
        }
        let (byte, own) = loop {
            let byte = self.byte(r);
            let own = if byte == 0x2A { 2 } else { 1 };
            if own <= makes && self.fits(r, byte, depth, nots, makes - own) {
                break (byte, own);
            }
        };
        out.push(byte);
        self.operands(r, byte, out);
        let (nots, inside) = (nots + denies(byte), makes - own);
        match layout(byte).1 {
            0 => {}
            1 => self.part(r, depth + 1, nots, inside, out),
            _ => {
                // all on one side makes deep parts
                let (low, high) = (inside.saturating_sub(most_made(depth + 1)), inside.min(most_made(depth + 1)));
                let left = if r.one_in(2) { r.pick(&[low, high]) } else { r.range(low, high) };
                self.part(r, depth + 1, nots, left, out);
                self.part(r, depth + 1, nots, inside - left, out);
            }
        }
    }

    fn byte(&self, r: &mut Random) -> u8 {
        if r.below(16) < self.size.nots {
            r.pick(&[0x24, 0x24, 0x2A])
        } else if r.below(16) < self.size.grounds {
            r.pick(&[0x20, 0x21, 0x25])
        } else {
            r.pick(&[0x22, 0x22, 0x23, 0x23, 0x26, 0x26, 0x27, 0x27, 0x2A])
        }
    }

    /// Whether this byte can open a part here that makes so many shapes inside it.
    fn fits(&self, r: &mut Random, byte: u8, depth: usize, nots: usize, inside: usize) -> bool {
        let inner = layout(byte).1;
        let room = if depth == 8 { inner == 0 && inside == 0 } else { inside <= inner * most_made(depth + 1) };
        let operands = match byte { 0x21 => self.size.nodes > 0, 0x25..=0x27 | 0x2A => self.size.paths > 0, _ => true };
        room && operands && (self.name)(r, nots + denies(byte)).is_some()
    }

    fn operands(&self, r: &mut Random, byte: u8, out: &mut Vec<u8>) {
        let (n, paths) = (self.size.nodes, self.size.paths);
        match byte {
            0x21 => out.extend(&node_shape(r.below(n))[1..]),
            0x25 => out.extend([r.below(paths) as u8, r.below(paths) as u8]),
            0x26 => out.push(r.below(paths) as u8),
            0x27 => out.extend([random_least(r, n), r.below(paths) as u8]),
            0x2A => out.extend([r.pick(&[0, 0, 1, 1, 2, 3, n, 254]).min(254) as u8, r.below(paths) as u8]),
            _ => {}
        }
    }
}

fn denies(byte: u8) -> usize {
    matches!(byte, 0x24 | 0x2A) as usize
}

// ---- The parts of a 28

pub const PART_BYTES: [u8; 10] = [0x20, 0x21, 0x22, 0x23, 0x24, 0x25, 0x26, 0x27, 0x29, 0x2A];

/// How many bytes a part has before its inner parts, and how many of these.
fn layout(byte: u8) -> (usize, usize) {
    match byte {
        0x21 | 0x25 => (3, 0),
        0x22 | 0x23 => (1, 2),
        0x24 => (1, 1),
        0x26 => (2, 1),
        0x27 | 0x2A => (3, 1),
        0x29 => (2, 0),
        _ => (1, 0),
    }
}

/// The part at an offset and all that open inside it, each with its offset and its depth, and the offset behind them.
fn opened(command: &[u8], at: usize, depth: usize) -> (Vec<(usize, usize)>, usize) {
    let (mut parts, mut next) = (Vec::new(), at);
    // the depths of those that are still to open, the next one last
    let mut waiting = vec![depth];
    while let (Some(depth), true) = (waiting.pop(), next < command.len()) {
        parts.push((next, depth));
        let (width, inner) = layout(command[next]);
        waiting.extend(vec![depth + 1; inner]);
        next += width;
    }
    (parts, next.min(command.len()))
}

/// How many fresh shapes a 28 makes.
fn fresh_of(command: &[u8]) -> usize {
    let made = |(at, depth): &(usize, usize)| match command[*at] { 0x29 => 0, 0x2A => 2 - (*depth == 1) as usize, _ => (*depth > 1) as usize };
    opened(command, 1, 1).0.iter().map(made).sum()
}

/// A part in the place of another.
fn replace(command: &mut Vec<u8>, at: usize, part: Vec<u8>) {
    let behind = opened(command, at, 1).1;
    command.splice(at..behind, part);
}

// ---- Damage

/// The refusals that a part can lead to, and those of the command that it stands in.
pub const PART_REFUSALS: [usize; 10] = [1, 2, 3, 4, 5, 6, 7, 9, 18, 19];

/// Damages a 28 of the case so that, alone, it leads to the refusal asked for; where it is moved, for 2, or grown, for 19, it may still be well.
pub fn damage_part(r: &mut Random, commands: &mut Commands, refusal: usize) {
    let nested: Vec<usize> = (0..commands.len()).filter(|i| commands[*i].len() > 1 && commands[*i][0] == 0x28).collect();
    if nested.is_empty() {
        return;
    }
    let i = r.pick(&nested);
    let (at, depth) = r.pick(&opened(&commands[i], 1, 1).0);
    match refusal {
        1 => commands[i][at] = loop {
            let byte = if r.one_in(2) { r.pick(&[0x00, 0x01, 0x1F, 0x28, 0x2B, 0x2F, 0x30, 0xFF]) } else { r.byte() };
            if !PART_BYTES.contains(&byte) {
                break byte;
            }
        },
        2 => { let moved = commands.remove(i); let to = r.range(0, commands.len()); commands.insert(to, moved); }
        3 => {
            commands.truncate(i + 1);
            let left = r.range(1, commands[i].len() - 1);
            commands[i].truncate(left);
        }
        4 => {
            let before = count(&commands[..i].to_vec(), 0x20, 0x28);
            // the one that is too many may have more wrong with it, or nothing behind it
            match r.below(4) {
                0 => commands[i][at] = 0x28,
                1 => { commands.truncate(i + 1); let left = r.range(1, commands[i].len()); commands[i].truncate(left); }
                _ => {}
            }
            commands.splice(i..i, vec![vec![0x20]; limits_of(commands).1.saturating_sub(before)]);
        }
        18 => { let wrong = wrapped(r, commands, 9 - depth.min(8)); commands[i].splice(at..at, wrong); }
        19 => too_many(r, commands, i, at, depth),
        _ => { let wrong = wrong_part(r, commands, refusal); replace(&mut commands[i], at, wrong); }
    }
}

/// A part with a wrong operand: 5, 6, 7 or 9.
fn wrong_part(r: &mut Random, commands: &Commands, refusal: usize) -> Vec<u8> {
    let (n, paths, written) = (node_count(commands), count(commands, 0x10, 0x14), count(commands, 0x20, 0x28));
    match refusal {
        5 => node_shape(r.pick(&[n, n + 1, 255, 256, 0x8000, 0xFFFF]).max(n)),
        6 => {
            let wrong = r.pick(&[paths, paths + 1, 15, 16, 255]).max(paths) as u8;
            // with or without a wrong number, which would be 7
            match r.below(5) {
                0 => vec![0x25, wrong, 0],
                1 => vec![0x25, 0, wrong],
                2 => vec![0x26, wrong, 0x20],
                3 => vec![0x27, r.pick(&[0, 1]), wrong, 0x20],
                _ => vec![0x2A, r.pick(&[255, 254]), wrong, 0x20],
            }
        }
        7 => r.pick(&[[0x27, 0, 0, 0x20], [0x2A, 255, 0, 0x20]]).to_vec(),
        // a fresh shape's number is none to name
        _ => vec![0x29, r.pick(&[written, written, written + 1, 31, 32, 255]).max(written) as u8],
    }
}

/// Parts to put before a part, so that it stands so much deeper.
fn wrapped(r: &mut Random, commands: &Commands, deeper: usize) -> Vec<u8> {
    let paths = count(commands, 0x10, 0x14);
    let mut bytes = Vec::new();
    for _ in 0..deeper {
        bytes.extend(match if paths == 0 { r.below(3) } else { r.below(6) } {
            0 => vec![0x24],
            1 => vec![0x22, 0x29, 0],
            2 => vec![0x23, 0x20],
            3 => vec![0x26, 0],
            4 => vec![0x27, 1, 0],
            _ => vec![0x2A, 0, 0],
        });
    }
    bytes
}

/// Written and fresh shapes.
pub(super) fn shape_count(commands: &Commands) -> usize {
    count(commands, 0x20, 0x28) + commands.iter().filter(|c| c[0] == 0x28).map(|c| fresh_of(c)).sum::<usize>()
}

/// One shape too many, at a shape command of its own; or far too many, in the part.
fn too_many(r: &mut Random, commands: &mut Commands, i: usize, at: usize, depth: usize) {
    let (shapes, most) = (shape_count(commands), limits_of(commands).1);
    if shapes <= most && r.one_in(2) {
        commands.splice(i..i, vec![vec![0x20]; most + 1 - shapes]);
    } else {
        let bottom: &[u8] = if r.one_in(2) { &[0x20] } else { &[0x29, 0] };
        replace(&mut commands[i], at, full_tree(9 - depth.min(8), bottom));
    }
}

/// Ands of ands, so many levels, with the same part at the bottom everywhere.
pub fn full_tree(levels: usize, bottom: &[u8]) -> Vec<u8> {
    if levels == 1 {
        return bottom.to_vec();
    }
    let inner = full_tree(levels - 1, bottom);
    [&[0x22][..], &inner, &inner].concat()
}

/// Puts a part in the place of another, or changes, inserts, removes or doubles bytes, in one 28.
pub fn mutate_part(r: &mut Random, commands: &mut Commands) {
    let nested: Vec<usize> = (0..commands.len()).filter(|i| commands[*i][0] == 0x28).collect();
    if nested.is_empty() {
        return;
    }
    let command = &mut commands[r.pick(&nested)];
    for _ in 0..r.pick(&[1, 1, 1, 2, 3]) {
        let (n, parts) = (command.len(), opened(command, 1, 1).0);
        let at = r.range(1, n);
        let value = match r.below(3) { 0 => r.pick(&PART_BYTES), 1 => r.below(8) as u8, _ => r.byte() };
        match r.below(8) {
            0..=2 if !parts.is_empty() => {
                let (from, to) = (r.pick(&parts).0, r.pick(&parts).0);
                let part = command[from..opened(command, from, 1).1].to_vec();
                replace(command, to, part);
            }
            3 | 4 if at < n => command[at] = value,
            5 if at < n => { command.remove(at); }
            6 => { let piece = command[at..(at + r.range(1, 8)).min(n)].to_vec(); command.splice(at..at, piece); }
            _ => command.insert(at, value),
        }
    }
}
