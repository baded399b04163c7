//! Links to add (document 02, point 10): candidate edges, selections of them, and the fewest that make a target sure.

use super::Operand::{NodeNumber, Property};
use super::{operands, refusal, row, Case, Judge, Link, Refusal};

/// A candidate's bytes, and the most that a list has.
const WIDTH: usize = 5;
const MOST: usize = 60;

/// Candidates that stand one after another as an edge's operands; what is left over at the end is none.
pub fn candidates(list: &[u8]) -> Vec<Link> {
    let candidate = |i: usize| operands(list, WIDTH * i, &[Property, NodeNumber, NodeNumber]).map(|(o, _)| (o[0], o[1], o[2]));
    (0..).map_while(candidate).collect()
}

/// Those that a selection chooses, candidate 0 being bit 0.
pub fn chosen(candidates: &[Link], selection: usize) -> Vec<Link> {
    (0..candidates.len()).filter(|i| selection >> i & 1 == 1).map(|i| candidates[i]).collect()
}

/// The selections of so many candidates, the smallest number first.
pub fn selections(count: usize) -> std::ops::Range<usize> {
    0..1 << count
}

/// How many candidates a selection chooses.
pub fn size(selection: usize) -> usize {
    selection.count_ones() as usize
}

impl Case {
    /// The case with these edges too; each counts even if it is parked.
    fn with_links(&self, added: &[Link]) -> Case {
        let mut case = Case { fillers: vec![], reached: vec![], ..self.clone() };
        case.links.extend(added);
        case.fill_paths();
        case
    }

    /// The verdict of a target over the case with these edges: 2 sure, 1 open, 0 impossible.
    pub fn verdict_with(&self, target: usize, added: &[Link]) -> u8 {
        let (shape, node) = self.targets[target];
        self.with_links(added).solved().values[self.pair(shape, node)]
    }

    /// The candidates of a list, or what is wrong with it or with the target's number: 23, 24.
    fn candidates_for(&self, target: usize, list: &[u8]) -> Result<Vec<Link>, Refusal> {
        if list.len() > MOST || list.len() % WIDTH != 0 {
            return refusal(23, list.len());
        }
        if target >= self.targets.len() {
            return refusal(24, 0);
        }
        let candidates = candidates(list);
        match candidates.iter().position(|(_, subject, object)| subject.max(object) >= &self.nodes) {
            Some(at) => refusal(24, at + 1),
            None => Ok(candidates),
        }
    }
}

impl Judge {
    /// number, place, selection
    pub fn fewest_edges(&self, target: usize, list: &[u8]) -> [usize; 3] {
        match self.fewest(target, list) {
            Ok(selection) => [0, 0, selection],
            Err(refusal) => row(refusal),
        }
    }

    /// Every selection by its size, those of a size by their number: the first that makes the target sure.
    fn fewest(&self, target: usize, list: &[u8]) -> Result<usize, Refusal> {
        let case = self.read.as_ref().map_err(|refusal| *refusal)?;
        let candidates = case.candidates_for(target, list)?;
        let sure = |selection: usize| case.verdict_with(target, &chosen(&candidates, selection)) == 2;
        for of_size in 0..=candidates.len() {
            if let Some(selection) = selections(candidates.len()).find(|selection| size(*selection) == of_size && sure(*selection)) {
                return Ok(selection);
            }
        }
        refusal(25, 0)
    }
}
