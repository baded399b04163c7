//! Random cases of each profile, narrow and wide, and damage to their 00 (document 02, point 8).

use super::*;

/// The most nodes and the most shapes of each profile.
pub const PROFILES: [(usize, usize); 3] = [(128, 32), (256, 16), (512, 8)];

pub fn profile(number: usize) -> Vec<u8> {
    vec![0x00, low(number)]
}

/// The commands up to the node count.
pub fn opening(number: Option<usize>, n: usize) -> Commands {
    number.map(profile).into_iter().chain([nodes(n)]).collect()
}

/// The profile with the most shapes of those that have room for so many nodes.
fn profile_for(n: usize) -> usize {
    PROFILES.iter().position(|(most, _)| n <= *most).expect("no profile has so many nodes")
}

/// The same for so many nodes; a 00 only where they need one.
pub(super) fn opening_for(n: usize) -> Commands {
    opening(Some(profile_for(n)).filter(|number| *number > 0), n)
}

/// The most shapes beside so many nodes.
pub fn most_shapes(n: usize) -> usize {
    PROFILES[profile_for(n)].1
}

// ---- Sizes

/// What a size has within the limits of a profile.
fn of_profile(number: usize, size: Size) -> Size {
    let (most_nodes, most_shapes) = PROFILES[number];
    let shapes = size.shapes.min(most_shapes);
    Size { profile: Some(number), nodes: size.nodes.min(most_nodes), shapes, fresh: size.fresh.min(most_shapes - shapes), ..size }
}

/// Any profile and one of these sizes, the last with parts: few of its shapes are written, so that there is room for fresh ones.
fn profiled(r: &mut Random, [plain, parked, nested]: [fn(&mut Random) -> Size; 3]) -> Size {
    let size = match r.below(4) {
        0 | 1 => plain(r),
        2 => parked(r),
        _ => Size { shapes: r.range(1, 5), ..nested(r) },
    };
    of_profile(r.below(3), size)
}

pub fn small_profiled(r: &mut Random) -> Size {
    profiled(r, [small, small_parked, small_nested])
}

pub fn medium_profiled(r: &mut Random) -> Size {
    profiled(r, [medium, medium_parked, medium_nested])
}

/// A node count above those of the profile before, about the ends of its words and its limit.
fn wide_count(r: &mut Random, number: usize) -> usize {
    let most = PROFILES[number].0;
    r.pick(&[most / 2 + 1, most - 65, most - 64, most - 63, most - 1, most, most])
}

/// Written and fresh shapes up to the profile's limit, and all of a large case else.
fn widened(r: &mut Random, number: usize, size: Size) -> Size {
    let shapes = r.range(1, PROFILES[number].1);
    let (nested, fresh) = if r.one_in(3) { (r.range(4, 16), PROFILES[number].1 - shapes) } else { (0, 0) };
    of_profile(number, Size { nodes: wide_count(r, number), shapes, nested, fresh, parks: r.pick(&[0, 0, 2, 8]), ..size })
}

/// Many nodes and few edges, most often one behind the other.
pub fn sparse(r: &mut Random) -> Size {
    let (number, size) = (r.range(1, 2), large(r));
    let layout = r.pick(&[Layout::Chain, Layout::Chain, Layout::Ring, size.layout]);
    let size = Size { edges: r.pick(&[20, 60, 140]), properties: r.range(1, 3), paths: r.range(1, 6), layout, ..size };
    widened(r, number, size)
}

/// Many nodes, all else up to the limits.
pub fn wide(r: &mut Random) -> Size {
    let (number, size) = (r.range(1, 2), large(r));
    widened(r, number, size)
}

/// Every group at the profile's limits.
pub fn full_wide(r: &mut Random) -> Size {
    let (number, size) = (r.range(1, 2), full(r));
    of_profile(number, Size { nodes: PROFILES[number].0, parks: r.pick(&[0, 4]), ..size })
}

// ---- Damage

/// Where the nodes command stands, or should: behind a 00.
pub(super) fn nodes_at(commands: &Commands) -> usize {
    commands.first().map_or(0, |first| (first[0] == 0x00) as usize)
}

pub(super) fn node_count(commands: &Commands) -> usize {
    match commands.get(nodes_at(commands)).map(Vec::as_slice) {
        Some([0x01, low, high]) => *low as usize + 256 * *high as usize,
        _ => 0,
    }
}

/// The limits of nodes and shapes that the commands are under, whatever else is wrong with them.
pub(super) fn limits_of(commands: &Commands) -> (usize, usize) {
    match commands.first().map(Vec::as_slice) {
        Some([0x00, number]) => PROFILES.get(*number as usize).copied().unwrap_or(PROFILES[0]),
        _ => PROFILES[0],
    }
}

/// An unknown profile, in the 00 or in one put before all else.
pub(super) fn unknown_profile(r: &mut Random, commands: &mut Commands) {
    let number = if r.one_in(2) { r.pick(&[3, 4, 127, 128, 255]) } else { r.range(3, 255) };
    let behind = nodes_at(commands);
    commands.splice(..behind, [profile(number)]);
}

/// The refusals that a 00 can lead to, and those that its limits do.
pub const PROFILE_REFUSALS: [usize; 5] = [2, 3, 4, 19, 22];

/// Damages the 00 of a case, or what is held to its limits, so that, alone, it leads to the refusal asked for; for 19 the case may still be well.
pub fn damage_profile(r: &mut Random, commands: &mut Commands, refusal: usize) {
    let behind = nodes_at(commands);
    match refusal {
        2 => match r.below(3) {
            // a second one, or one behind any command
            0 if behind > 0 => commands.insert(1, profile(r.below(4))),
            1 => { let at = r.range(1, commands.len()); let number = r.below(4); commands.insert(at, profile(number)[..r.range(1, 2)].to_vec()); }
            // with no 01 behind it
            _ => { commands.remove(behind); }
        },
        // in the 00 or behind it
        3 => {
            let keep = r.below(3);
            let number = r.pick(&[0, 1, 2, 3, 255]);
            commands.splice(.., [profile(number)[..keep].to_vec()]);
        }
        19 => {
            // as many as there can be, or one more, the last of them by a 28
            let missing = (limits_of(commands).1 + r.below(2)).saturating_sub(shape_count(commands)).max(1);
            let makes = missing.min(r.range(1, 8));
            let mut fill = vec![vec![0x20]; missing - makes];
            fill.push([vec![0x28], vec![0x24; makes - 1], vec![0x20]].concat());
            let at = end_of(commands, 0x28);
            commands.splice(at..at, fill);
        }
        _ => damage(r, commands, refusal),
    }
    commands.retain(|command| !command.is_empty());
}
