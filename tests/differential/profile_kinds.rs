//! The kinds of turns with profiles (document 02, point 8): lists that leave nothing out, then random cases of each profile, whole and damaged, narrow and wide.

use crate::alike::examine_alike;
use crate::generator::*;
use crate::kinds::*;
use crate::part_kinds::{limit_and_fault, limit_of_shapes};
use crate::plan::{Kind, Plan};
use crate::tally::Tally;
use crate::{old_code, samples, totals, unfinished_kinds};

pub fn kinds(plan: &Plan) -> Vec<Kind<Tally>> {
    vec![
        list(plan, "profiles", 10, |_| wholes()),
        list(plan, "profiles cut", 0, |_| wholes().iter().flat_map(|case| cut(case)).collect()),
        list(plan, "profiles with a byte less", 1, |_| with_a_byte_less(&one_of_each_group(2))),
        list(plan, "profiles with a byte more", 1, |_| with_a_byte_more(&one_of_each_group(2), 0, &[0x00, 0x01, 0x02, 0x03, 0x04, 0xFF])),
        list(plan, "profiles with a byte changed", 1, |_| heads_changed()),
        list(plan, "profile numbers", 1, |_| numbers()),
        list(plan, "00 out of place", 1, |_| out_of_place()),
        list(plan, "straight after a 00", 1, |_| straight_after()),
        list(plan, "limits by profile", 1, |_| limits()),
        list(plan, "node numbers by profile", 1, |_| node_numbers()),
        list(plan, "limits of shapes by profile", 1, |_| limits_of_shapes()),
        each_listed(plan, "alike, samples", |_| alike_samples(), examine_alike),
        list(plan, "roads", 2, roads),
        list(plan, "least numbers on roads", 1, |_| least_numbers()),
        each_listed(plan, "totals of roads", |_| vec![bytes(&feeder(257, Feeder::Chain, &[]))], totals::examine_every_node),
        each_listed(plan, "courses of roads", |_| short_roads(), unfinished_kinds::examine_course),
        full_cut(plan, "full roads cut", full_wide),
        draw("damaged for 22", 300, 1, |r| damaged(r, small_profiled, &[22])),
        draw("profiles damaged", 6000, 1, |r| {
            let refusals: Vec<usize> = (0..r.pick(&[1, 1, 2, 3])).map(|_| r.pick(&PROFILE_REFUSALS)).collect();
            damaged_by(r, small_profiled, &refusals, damage_profile)
        }),
        draw("profiled cases damaged", 3000, 1, |r| {
            let refusal = r.pick(&[1, 2, 3, 4, 5, 6, 7, 8, 9, 20, 22]);
            damaged(r, small_or_medium, &[refusal])
        }),
        draw("profiled bytes changed", 4000, 1, |r| changed(r, small_profiled)),
        draw("roads changed", 300, 1, |r| changed(r, sparse)),
        draw("profiled small", 4000, 3, |r| drawn(r, small_profiled)),
        draw("profiled medium", 800, 3, |r| drawn(r, medium_profiled)),
        draw("feeders on roads", 12, 2, feeder_on_road),
        draw("sparse roads", 100, 4, |r| drawn(r, sparse)),
        draw("wide roads", 20, 3, |r| drawn(r, wide)),
        draw("full roads", 6, 3, |r| drawn(r, full_wide)),
        each_drawn("alike", 3000, alike_case, examine_alike),
        each_drawn("alike large", 10, |r| drawn(r, large), examine_alike),
        each_drawn("totals profiled", 800, |r| drawn(r, small_profiled), totals::examine_every_node),
        each_drawn("old code, profiled", 800, |r| drawn(r, small_profiled), old_code::supported_and_spoilt),
        each_drawn("old code, sparse roads", 10, |r| drawn(r, sparse), old_code::supported_and_spoilt),
        each_drawn("courses profiled", 1500, |r| drawn(r, small_profiled), unfinished_kinds::examine_course),
        each_drawn("courses of sparse roads", 20, |r| drawn(r, sparse), unfinished_kinds::examine_course),
        each_drawn("courses of full roads", 2, |r| drawn(r, full_wide), unfinished_kinds::examine_course),
        each_drawn("states of any contents, profiled", 1500, |r| drawn(r, small_profiled), unfinished_kinds::examine_state),
        each_drawn("states of any contents, roads", 20, |r| drawn(r, sparse), unfinished_kinds::examine_state),
    ]
}

fn small_or_medium(r: &mut Random) -> Size {
    if r.one_in(4) { medium_profiled(r) } else { small_profiled(r) }
}

// ---- Whole cases

/// A case behind the 00 of a profile.
fn under(number: usize, case: &[u8]) -> Vec<u8> {
    [profile(number), case.to_vec()].concat()
}

/// No 00 and that of each profile.
pub fn openings() -> Vec<Vec<u8>> {
    let mut openings = vec![vec![]];
    openings.extend((0..PROFILES.len()).map(profile));
    openings
}

pub fn sample_cases() -> Cases {
    [samples::RING, samples::NESTED_RING, samples::FRESH, samples::AT_MOST, samples::PARKED_RING, samples::PARKED].map(samples::hex).to_vec()
}

/// The samples under each profile; not every profile has room for the shapes of each.
fn wholes() -> Cases {
    let of_profile = |number: usize| sample_cases().into_iter().map(move |case| under(number, &case));
    (0..PROFILES.len()).flat_map(of_profile).chain([samples::hex(samples::ROAD)]).collect()
}

/// A command of each group, and of each kind of edge.
fn commands() -> Commands {
    vec![nodes(2), edge(0, 0, 1), park(0, 0, 1), vec![0x10, 0], vec![0x14, 0], vec![0x20], vec![0x28, 0x24, 0x29, 0], target(1, 1), vec![0xFF]]
}

fn one_of_each_group(number: usize) -> Vec<u8> {
    under(number, &bytes(&commands()))
}

/// Every byte of the 00 and of the 01 changed to any other.
fn heads_changed() -> Cases {
    (0..PROFILES.len()).flat_map(|number| with_a_byte_changed(&one_of_each_group(number), 0).into_iter().take(5 * 256)).collect()
}

// ---- Refusals

/// Every number as a profile, with the input over before it, behind it, in the 01 and behind it; and whole.
fn numbers() -> Cases {
    let case = |number: usize| one_of_each_group(number);
    (0..=255).flat_map(|number| [2, 3, 4, 5].map(|length| case(number)[..length].to_vec()).into_iter().chain([case(number)])).chain([vec![0x00]]).collect()
}

/// A 00, whole or cut, known or not, before and behind every command of a case with a 00 and of one without.
fn out_of_place() -> Cases {
    let strays = ["00", "00 00", "00 01", "00 02", "00 03", "00 FF"];
    let with = |number: usize| [vec![profile(number)], commands()].concat();
    [commands(), with(0), with(2)].iter().flat_map(|commands| with_a_stray(commands, &strays)).collect()
}

/// Every command and some bytes that are none straight after a 00, whole and with the input over behind it.
fn straight_after() -> Cases {
    let mut cases = Vec::new();
    for number in 0..=PROFILES.len() {
        for at in 0..commands().len() {
            let behind = &commands()[at..];
            cases.extend([under(number, &behind.concat()), under(number, &behind[0]), under(number, &behind[0][..1])]);
        }
        cases.extend((0..=255).map(|byte| under(number, &[byte])));
    }
    cases
}

// ---- Limits

/// Node counts about the limits of all profiles, under each and without a 00; and the limits of edges, paths and targets, which are the same under all.
fn limits() -> Cases {
    let mut cases = Vec::new();
    for opening in openings() {
        let mut add = |commands: Commands| cases.push([opening.clone(), bytes(&commands)].concat());
        for n in [0, 1, 127, 128, 129, 255, 256, 257, 383, 384, 385, 511, 512, 513, 640, 1024, 0x8000, 0xFFFF] {
            add(vec![nodes(n), vec![0xFF]]);
            add(vec![nodes(n), vec![0x20], vec![0x24, 0], vec![0xFF]]);
        }
        for n in [1023, 1024, 1025] {
            add([vec![nodes(2)], vec![edge(7, 1, 0); n], vec![vec![0x10, 7], vec![0x20], vec![0x27, 1, 0, 0], vec![0xFF]]].concat());
        }
        for n in [15, 16, 17] {
            add([vec![nodes(2), edge(0, 0, 1)], vec![vec![0x10, 0]; n], vec![vec![0x20], vec![0x27, 1, n as u8 - 1, 0], vec![0xFF]]].concat());
        }
        for n in [255, 256, 257] {
            add([vec![nodes(2), vec![0x20]], vec![target(0, 1); n], vec![vec![0xFF]]].concat());
        }
    }
    cases
}

/// Node operands about the node count and about each byte of it, in every command that has one.
fn node_numbers() -> Cases {
    let mut cases = Vec::new();
    for (number, n) in [(0, 128), (1, 129), (1, 256), (2, 257), (2, 511), (2, 512)] {
        for a in [0, 127, 128, 255, 256, 257, 384, n - 1, n, n + 1, n % 256, 512, 513, 0x0200, 0xFFFF] {
            let in_place = [vec![edge(0, a, 0)], vec![edge(0, n - 1, a)], vec![edge(0, 0, n - 1), park(0, 0, a)], vec![vec![0x20], node_shape(a)], vec![[vec![0x28, 0x24], node_shape(a)].concat()], vec![vec![0x20], target(0, a)]];
            cases.extend(in_place.map(|commands| bytes(&[opening(Some(number), n), commands, vec![vec![0xFF]]].concat())));
        }
    }
    cases
}

/// Written and fresh shapes about the limit of each profile, under each; about its own also beside a fault.
fn limits_of_shapes() -> Cases {
    let mut cases = Vec::new();
    for (number, (_, own)) in PROFILES.into_iter().enumerate() {
        for (_, most) in PROFILES {
            cases.extend(limit_of_shapes(most).iter().map(|case| under(number, case)));
        }
        cases.extend(limit_and_fault(own).iter().map(|case| under(number, case)));
        for written in [7, 8, 9, 15, 16, 17, 31, 32, 33] {
            cases.push(under(number, &bytes(&[vec![nodes(2)], vec![vec![0x24, 0]; written], vec![vec![0xFF]]].concat())));
        }
    }
    cases
}

// ---- Long roads

/// Chains, feeders, stars, paths of paths and clashes about the ends of words, up to the limits.
fn roads(r: &mut Random) -> Cases {
    let mut cases = vec![positive_chain(129, 3), mixed_chain(256, 16), positive_chain(512, 8), mixed_chain(512, 7), denial_chain(129, 16), denial_chain(512, 3), open_chain(256, 5, 6)];
    for n in [129, 191, 192, 193, 255, 256, 257, 320, 321, 448, 449, 511, 512] {
        cases.push(feeder(n, r.pick(&[Feeder::Chain, Feeder::Ring, Feeder::Tree]), r.pick(&[STAR, STAR_OF_SEQUENCE])));
    }
    cases.extend([256, 512].map(|n| feeder(n, Feeder::Ring, STARS_IN_STARS)));
    for n in [256, 257, 512] {
        cases.extend([dense_star(r, n), deep_paths(r, n, &[0x12, 0x13, 0x14]), parked_last(n)]);
    }
    cases.extend([clashes(r, 256, 7), clashes(r, 512, 3)]);
    cases.iter().map(bytes).collect()
}

/// A feeder of any length that needs a profile, with any star over it.
fn feeder_on_road(r: &mut Random) -> Vec<u8> {
    let n = r.range(129, 512);
    bytes(&feeder(n, r.pick(&[Feeder::Chain, Feeder::Ring, Feeder::Tree]), r.pick(&[STAR, STARS_IN_STARS, STAR_OF_SEQUENCE])))
}

/// Roads of few steps in every round.
fn short_roads() -> Cases {
    [feeder(257, Feeder::Chain, STAR), feeder(512, Feeder::Tree, STAR), open_chain(129, 3, 4), open_chain(512, 3, 5)].iter().map(bytes).collect()
}

/// Least numbers about the number of fillers, which go up to all nodes; above 255 no least number reaches it.
fn least_numbers() -> Cases {
    let mut cases = Vec::new();
    for (number, n) in [(1, 256), (2, 512)] {
        for fillers in [1, 129, 191, 192, 193, 254, 255, 256, 257, 384, 511, 512].into_iter().filter(|fillers| *fillers <= n) {
            for least in [1, fillers - 1, fillers, fillers + 1, 255] {
                let mut case = opening(Some(number), n);
                case.extend((n - fillers..n).map(|b| edge(3, n - 2, b)));
                case.extend([vec![0x10, 3], vec![0x11, 3], vec![0x20], vec![0x27, least.clamp(1, 255) as u8, 0, 0], vec![0x27, 1, 1, 1], vec![0x28, 0x2A, least.min(254) as u8, 0, 0x20], vec![0xFF]]);
                cases.push(bytes(&case));
            }
        }
    }
    cases
}

// ---- No 00 and 00 00

/// The samples, and each cut at every length.
fn alike_samples() -> Cases {
    sample_cases().iter().flat_map(|case| [cut(case), vec![case.clone()]].concat()).collect()
}

/// A small case, or a medium one, whole, damaged for any refusal or with bytes changed.
fn alike_case(r: &mut Random) -> Vec<u8> {
    let sizes: [fn(&mut Random) -> Size; 5] = [small, small_nested, small_parked, over_nested, medium];
    let size = r.pick(&sizes);
    let mut case = match r.below(3) {
        0 => { let refusal = r.pick(&[1, 2, 3, 4, 5, 6, 7, 8, 9, 20]); damaged(r, size, &[refusal]) }
        _ => drawn(r, size),
    };
    if r.one_in(4) {
        mutate(r, &mut case);
    }
    case
}
