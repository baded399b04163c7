//! Random parks among the edges, and damage to them (document 02, point 4).

use super::*;

// ---- Sizes

/// Few nodes and properties, so that edges meet, and parks of some of them.
pub fn small_parked(r: &mut Random) -> Size {
    Size { nodes: r.range(1, 4), edges: r.range(2, 14), properties: r.range(1, 2), paths: r.range(1, 5), parks: r.range(2, 10), ..small(r) }
}

pub fn tiny_parked(r: &mut Random) -> Size {
    Size { edges: r.range(2, 9), properties: r.range(1, 2), paths: r.range(1, 4), parks: r.range(3, 10), ..tiny(r) }
}

pub fn medium_parked(r: &mut Random) -> Size {
    Size { parks: r.range(1, 10), ..medium(r) }
}

pub fn large_parked(r: &mut Random) -> Size {
    Size { edges: r.pick(&[700, 1023, 1024]), parks: r.range(1, 12), ..large(r) }
}

pub fn nested_parked(r: &mut Random) -> Size {
    Size { edges: r.range(2, 14), parks: r.range(2, 10), ..small_nested(r) }
}

// ---- Random parks

fn with_byte(byte: u8, command: &[u8]) -> Vec<u8> {
    [&[byte], &command[1..]].concat()
}

/// The next command after these among the edges: a park of any edge, of the last, of one that is parked already, or such an edge once more.
pub(super) fn random_park(r: &mut Random, edges: &[Vec<u8>]) -> Vec<u8> {
    let parked: Vec<&[u8]> = edges.iter().map(Vec::as_slice).filter(|edge| edge[0] == 0x03).collect();
    match r.below(6) {
        0 if !parked.is_empty() => r.pick(&parked).to_vec(),
        1 if !parked.is_empty() => with_byte(0x02, r.pick(&parked)),
        2 => with_byte(0x03, &edges[edges.len() - 1]),
        _ => with_byte(0x03, &edges[r.below(edges.len())]),
    }
}

// ---- Cases with less of their edges

/// The commands among the edges of a case that reads, and where they begin and end.
pub(super) fn edges_of(case: &[u8]) -> (Vec<&[u8]>, usize, usize) {
    let start = if case[0] == 0x00 { 5 } else { 3 };
    let edges: Vec<&[u8]> = case[start..].chunks(6).take_while(|command| matches!(command[0], 0x02 | 0x03)).collect();
    let end = start + 6 * edges.len();
    (edges, start, end)
}

pub(super) fn number_at(bytes: &[u8], at: usize) -> usize {
    bytes[at] as usize + 256 * bytes[at + 1] as usize
}

/// The node count of a case that reads.
pub(super) fn nodes_of(case: &[u8]) -> usize {
    number_at(case, edges_of(case).1 - 2)
}

/// A case that reads, with these commands in the place of its edges.
pub(super) fn with_edges(case: &[u8], edges: Commands) -> Vec<u8> {
    let (_, start, end) = edges_of(case);
    [&case[..start], &bytes(&edges), &case[end..]].concat()
}

/// A case that reads, with those of its edges' commands that are kept.
pub(super) fn keeping(case: &[u8], kept: impl Fn(&[u8]) -> bool) -> Vec<u8> {
    with_edges(case, edges_of(case).0.into_iter().filter(|edge| kept(edge)).map(<[u8]>::to_vec).collect())
}

/// Without its parked edges and all that names them.
pub fn without_parked(case: &[u8]) -> Vec<u8> {
    let (edges, ..) = edges_of(case);
    keeping(case, |edge| !edges.contains(&&with_byte(0x03, edge)[..]))
}

/// Without its parks, so that no edge is parked.
pub fn without_parks(case: &[u8]) -> Vec<u8> {
    keeping(case, |edge| edge[0] == 0x02)
}

// ---- Damage

/// The refusals that a command among the edges can lead to.
pub const EDGE_REFUSALS: [usize; 6] = [1, 2, 3, 4, 5, 20];

/// A park that, alone, leads to 20: of an edge that is not there, or only later. It may have a wrong node too, which is 5.
pub(super) fn park_unknown(r: &mut Random, commands: &mut Commands) {
    let edges = positions(commands, &[0x02]);
    if edges.is_empty() {
        let at = end_of(commands, 0x01);
        return commands.insert(at, park(0, 0, 0));
    }
    let edge = commands[r.pick(&edges)].clone();
    match r.below(4) {
        // before its edge
        0 => {
            let first = commands.iter().position(|command| *command == edge).unwrap();
            let at = r.range(nodes_at(commands) + 1, first.max(nodes_at(commands) + 1));
            commands.insert(at, with_byte(0x03, &edge));
        }
        // with its edge gone
        1 => {
            let at = end_of(commands, 0x03);
            commands.insert(at, with_byte(0x03, &edge));
            commands.retain(|command| *command != edge);
        }
        // with its ends changed round
        2 => {
            let at = end_of(commands, 0x03);
            commands.insert(at, [&[0x03, edge[1]], &edge[4..], &edge[2..4]].concat());
        }
        // with a byte that is another
        _ => {
            let mut other = with_byte(0x03, &edge);
            other[r.range(1, 5)] = r.pick(&[0, 1, 2, 3, 255]);
            let at = end_of(commands, 0x03);
            commands.insert(at, other);
        }
    }
}
