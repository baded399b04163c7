//! Candidate edges for cases of any kind, cases with some of them written out, and broken roads that some of them mend (document 02, point 10).

use super::*;

/// A case, the number of a target and a list of candidates.
pub struct Works {
    pub case: Vec<u8>,
    pub target: usize,
    pub list: Vec<u8>,
}

pub fn candidate(p: usize, a: usize, b: usize) -> Vec<u8> {
    edge(p, a, b)[1..].to_vec()
}

/// The candidates of a list that a selection chooses.
fn chosen(list: &[u8], selection: usize) -> Vec<&[u8]> {
    list.chunks(5).enumerate().filter(|(i, _)| selection >> i & 1 == 1).map(|(_, candidate)| candidate).collect()
}

/// A case that reads, with the chosen candidates written out: an 03 of one of them becomes an 02, and behind the edges each has an 02 of its own. None where these are too many to read.
pub fn written_out(case: &[u8], list: &[u8], selection: usize) -> Option<Vec<u8>> {
    let chosen = chosen(list, selection);
    let (edges, ..) = edges_of(case);
    let kept = edges.iter().map(|edge| if chosen.contains(&&edge[1..]) { laid(&edge[1..]) } else { edge.to_vec() });
    let all: Commands = kept.chain(chosen.iter().map(|candidate| laid(candidate))).collect();
    (all.len() <= 1024).then(|| with_edges(case, all))
}

fn laid(operands: &[u8]) -> Vec<u8> {
    [&[0x02], operands].concat()
}

// ---- Random lists

/// So many candidates for a case that reads and has nodes: edges of it, parked ones too, one of the list once more, and others, many of them at one node.
pub fn random_list(r: &mut Random, case: &[u8], count: usize) -> Vec<u8> {
    let (edges, ..) = edges_of(case);
    let n = nodes_of(case);
    let (parked, hub) = (edges.iter().copied().filter(|edge| edge[0] == 0x03).collect::<Vec<_>>(), r.below(n));
    let mut list: Commands = Vec::new();
    for _ in 0..count {
        list.push(match r.below(12) {
            0 if !edges.is_empty() => r.pick(&edges)[1..].to_vec(),
            1..=4 if !parked.is_empty() => r.pick(&parked)[1..].to_vec(),
            5 if !list.is_empty() => list[r.below(list.len())].clone(),
            6..=8 => candidate(r.below(2), hub, r.below(n)),
            _ => candidate(r.below(3), r.below(n), r.below(n)),
        });
    }
    list.concat()
}

/// A list of which a node is none of so many: of any candidate, or of several, as subject, as object or as both.
pub fn with_unknown_nodes(r: &mut Random, mut list: Vec<u8>, n: usize) -> Vec<u8> {
    for _ in 0..r.pick(&[1, 1, 2, 3]) {
        let start = 5 * r.below(list.len() / 5);
        let unknown = r.pick(&[n, n + 1, 256, 256 + n, 512, 0x8000, 0xFFFF]).max(n);
        for at in r.pick(&[&[1][..], &[3], &[1, 3]]) {
            (list[start + at], list[start + at + 1]) = (low(unknown), high(unknown));
        }
    }
    list
}

/// A list of a wrong length: one with a rest, or one that is too long.
pub fn of_wrong_length(r: &mut Random, mut list: Vec<u8>) -> Vec<u8> {
    let length = match r.below(3) {
        0 => 5 * r.below(12) + r.range(1, 4),
        1 => r.pick(&[61, 64, 65, 66, 70, 120, 256, 300]),
        _ => r.range(61, 400),
    };
    list.resize(length, 0);
    list
}

// ---- Broken roads

/// What fittings can be, by the relays of property 0: gateway; linked, the gateway or on to what is linked; winning and losing, as moves go from fitting to fitting; all on linked; on, and all of them linked; two ways on.
fn rules(gateway: usize) -> Commands {
    vec![vec![0x10, 0], node_shape(gateway), vec![0x23, 0, 2], vec![0x27, 1, 0, 1], vec![0x27, 1, 0, 4], vec![0x24, 3], vec![0x26, 0, 1], vec![0x22, 2, 5], vec![0x27, 2, 0, 1]]
}

/// The shapes of them that a list is worth drawing up for.
const ASKED: [usize; 6] = [1, 1, 3, 3, 6, 7];

/// So many fittings on any nodes of a case, each relaying to the one before it; some relays are missing, some are parked, and there are some others. The list has what is missing or parked, others, and at times a short cut, up to the most; the targets are the last fitting's.
pub fn broken_road(r: &mut Random, profile: Option<usize>, nodes: usize, fittings: usize, most: usize) -> Works {
    let road = some_nodes(r, nodes, fittings);
    let (mut edges, mut list) = (Vec::new(), Vec::new());
    for ends in road.windows(2) {
        let relay = candidate(0, ends[1], ends[0]);
        let broken = r.below(5);
        if broken > 0 {
            edges.push(laid(&relay));
        }
        if broken == 1 {
            edges.push([&[0x03], &relay[..]].concat());
        }
        if broken < 2 && !r.one_in(12) {
            list.push(relay);
        }
    }
    let other = |r: &mut Random| candidate(r.pick(&[0, 0, 0, 1]), r.pick(&road), r.pick(&road));
    for _ in 0..r.below(4) {
        edges.push(laid(&other(r)));
    }
    list.truncate(most);
    for _ in list.len()..r.range(list.len(), most) {
        let again = !list.is_empty() && r.one_in(6);
        let more = if again { list[r.below(list.len())].clone() } else { other(r) };
        list.insert(r.range(0, list.len()), more);
    }
    // last of all a short cut, where the way round may have smaller numbers
    if list.len() < most && r.one_in(3) {
        list.push(candidate(0, road[fittings - 1], road[0]));
    }
    let targets: Commands = (0..r.range(1, 4)).map(|_| target(r.pick(&ASKED), road[fittings - 1])).collect();
    let asked = r.below(targets.len());
    let case = bytes(&[opening(profile, nodes), edges, rules(road[0]), targets, vec![vec![0xFF]]].concat());
    Works { case, target: asked, list: list.concat() }
}

/// So many different nodes, in any order.
fn some_nodes(r: &mut Random, nodes: usize, count: usize) -> Vec<usize> {
    let mut some = Vec::new();
    while some.len() < count {
        let a = r.below(nodes);
        if !some.contains(&a) {
            some.push(a);
        }
    }
    some
}

/// The same case with edges up to the limit, or one below it: its own once more, and others that no rule asks for.
pub fn crowded(r: &mut Random, case: &[u8]) -> Vec<u8> {
    let n = nodes_of(case);
    let mut edges: Commands = edges_of(case).0.into_iter().map(<[u8]>::to_vec).collect();
    let (own, most) = (edges.len(), r.pick(&[1023, 1024, 1024]));
    while edges.len() < most {
        let more = if own > 0 && r.one_in(2) { edges[r.below(own)].clone() } else { edge(200 + r.below(50), r.below(n), r.below(n)) };
        edges.push(more);
    }
    with_edges(case, edges)
}
