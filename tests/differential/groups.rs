//! Two roads, one cabinet (document 02, point 9): groups of nodes that no edge joins, the case with only a group's edges, and the rounds by groups. A group is told by node; the other has the rest.

use super::Case;

impl Case {
    /// Whether no edge joins the group and the rest, parked ones included.
    pub fn apart(&self, group: &[bool]) -> bool {
        self.edges.iter().all(|edge| group[edge.link.1] == group[edge.link.2])
    }

    /// The case with only that group's edges; an edge, or a park of one, is its subject's.
    pub fn of_group(&self, group: &[bool]) -> Case {
        let edges = self.edges.iter().filter(|edge| group[edge.link.1]).copied().collect();
        let mut case = Case { edges, links: vec![], fillers: vec![], reached: vec![], ..self.clone() };
        case.work_out_paths();
        case
    }

    /// A set of pairs, cut to the group's nodes.
    fn cut(&self, set: &[bool], group: &[bool]) -> Vec<bool> {
        (0..self.pairs()).map(|pair| set[pair] && group[pair % self.nodes]).collect()
    }

    /// A group's rounds, counted on the T sets of its own case, cut to its nodes.
    pub fn rounds_of_group(&self, group: &[bool]) -> usize {
        let own = self.of_group(group);
        let mut t = vec![false; own.pairs()];
        for i in 0.. {
            let (_, next) = own.round(&t);
            if own.cut(&next, group) == own.cut(&t, group) {
                return i + 1;
            }
            t = next;
        }
        unreachable!()
    }

    /// The rounds and the values of the whole, where no edge joins the groups: the larger rounds of both, and each group's values on its nodes.
    pub fn by_groups(&self, group: &[bool]) -> (usize, Vec<u8>) {
        let rest: Vec<bool> = group.iter().map(|is| !is).collect();
        let rounds = self.rounds_of_group(group).max(self.rounds_of_group(&rest));
        let (of_group, of_rest) = (self.of_group(group).solved().values, self.of_group(&rest).solved().values);
        let value = |pair: usize| if group[pair % self.nodes] { of_group[pair] } else { of_rest[pair] };
        (rounds, (0..self.pairs()).map(value).collect())
    }
}
