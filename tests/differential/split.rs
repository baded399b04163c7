//! Cases bent until their nodes fall into two groups that no edge joins, the case of each group, and cases with edges across (document 02, point 9).

use super::*;

/// A case and one of two groups, by node whether it is in it; the other group has the rest.
pub type Split = (Vec<u8>, Vec<bool>);

pub fn rest(group: &[bool]) -> Vec<bool> {
    group.iter().map(|is| !is).collect()
}

/// Subject and object.
fn ends(edge: &[u8]) -> [usize; 2] {
    [2, 4].map(|at| number_at(edge, at))
}

/// A case that reads, with only the edges of a group: those whose subject is in it.
pub fn of_group(case: &[u8], group: &[bool]) -> Vec<u8> {
    keeping(case, |edge| group[ends(edge)[0]])
}

/// A case that reads, with its edges bent until none joins the groups: an object gives way to the next node, going round, of its subject's group. Chains and rings become two, and a park still has its edge before it.
pub fn kept_apart(case: &[u8], group: &[bool]) -> Vec<u8> {
    let bent = |edge: &[u8]| {
        let [a, b] = ends(edge);
        let next = (b..).map(|b| b % group.len()).find(|b| group[*b] == group[a]).unwrap();
        [&edge[..4], &[low(next), high(next)]].concat()
    };
    with_edges(case, edges_of(case).0.into_iter().map(bent).collect())
}

// ---- Random groups

/// Nodes and edges for two roads, where a size has few.
pub fn for_two(size: Size) -> Size {
    if size.nodes < 8 { Size { nodes: 2 * size.nodes + 2, edges: 2 * size.edges + 2, ..size } } else { size }
}

/// All nodes or none, one or all but one, those below a number or the rest; most often any of them.
fn random_group(r: &mut Random, n: usize) -> Vec<bool> {
    let (kind, at, others) = (r.below(16), r.range(0, n), r.one_in(2));
    (0..n).map(|a| others != match kind { 0 => false, 1 => a == at, 2 => a < at, _ => r.one_in(2) }).collect()
}

/// A case that reads, bent for any group.
pub fn split(r: &mut Random, case: Vec<u8>) -> Split {
    let group = random_group(r, nodes_of(&case));
    (kept_apart(&case, &group), group)
}

/// The same with some edges put across, from either group to the other, and a park of each if told; none where a group is empty.
pub fn split_across(r: &mut Random, case: Vec<u8>, parks: bool) -> Option<Split> {
    let (case, group) = split(r, case);
    let mut edges: Commands = edges_of(&case).0.into_iter().map(<[u8]>::to_vec).collect();
    for _ in 0..r.range(1, 6) {
        let (p, a, at) = (r.below(2), r.below(group.len()), r.range(0, edges.len()));
        let others: Vec<usize> = (0..group.len()).filter(|b| group[*b] != group[a]).collect();
        let b = if others.is_empty() { return None } else { r.pick(&others) };
        if parks {
            edges.insert(at, park(p, a, b));
        }
        edges.insert(r.range(0, at), edge(p, a, b));
    }
    Some((with_edges(&case, edges), group))
}

// ---- Every group

/// By node a number that it shares with those that edges join it to, parked ones included, and with no other.
fn joined(case: &[u8]) -> Vec<usize> {
    let mut number: Vec<usize> = (0..nodes_of(case)).collect();
    for [a, b] in edges_of(case).0.into_iter().map(ends) {
        let (from, to) = (number[a], number[b]);
        number.iter_mut().filter(|other| **other == from).for_each(|other| *other = to);
    }
    number
}

/// A case that reads, with every group that no edge joins to the rest; there must be few nodes that edges don't join.
pub fn every_split(case: &[u8]) -> Vec<Split> {
    let number = joined(case);
    let mut apart = number.clone();
    apart.sort();
    apart.dedup();
    let place = |a: usize| apart.iter().position(|other| *other == number[a]).unwrap();
    let group = |chosen: usize| (0..number.len()).map(|a| chosen >> place(a) & 1 == 1).collect();
    (0..1 << apart.len()).map(|chosen| (case.to_vec(), group(chosen))).collect()
}
