//! The circuits that a capture mostly speaks of: ours, theirs, or both.

use crate::party::Party;
use crate::random::Random;

#[derive(Clone, Copy)]
pub(super) struct Circuit {
    pub label: u32,
    pub discriminator: u32,
    pub remote: u32,
    pub mep_kind: u16,
    pub own: [u8; 12],
    pub expected: [u8; 12],
}

/// So many circuits: of one party, or of both in turn. Of both, two that follow
/// each other often have one discriminator.
pub(super) fn circuits(random: &mut Random, count: u32) -> Vec<Circuit> {
    let parties: &[Party] = match random.below(4) {
        0 => &[Party::OURS],
        1 => &[Party::THEIRS],
        _ => &[Party::OURS, Party::THEIRS],
    };
    let mut circuits = Vec::new();
    for number in 0..count {
        let turn = number as usize % parties.len();
        let label = label(random, number / parties.len() as u32, parties[turn]);
        let mut circuit = circuit(random, number, label);
        if turn > 0 && random.chance(60) {
            circuit.discriminator = circuits.last().map_or(1, |c: &Circuit| c.discriminator);
        }
        circuits.push(circuit);
    }
    circuits
}

/// The circuit with a number: its discriminators and MEP-IDs.
fn circuit(random: &mut Random, number: u32, label: u32) -> Circuit {
    let discriminator = match number {
        0 => random.pick(&[1, 17, u32::MAX]),
        _ => 0x0100_0000 * random.between(1, 9) as u32 + number,
    };
    let mut own = [0; 12];
    own[..4].copy_from_slice(&random.pick(&[0u32, 1, 0xffff_ffff]).to_be_bytes());
    own[11] = number as u8;
    let mut expected = own;
    expected[4] = 1;
    Circuit {
        label,
        discriminator,
        remote: random.pick(&[1, 2, 0x8000_0000, u32::MAX, 5_000 + number]),
        mep_kind: random.below(2) as u16,
        own,
        expected,
    }
}

/// A label of a party. The first two are often its lowest or highest.
fn label(random: &mut Random, nth: u32, party: Party) -> u32 {
    let theirs = party == Party::THEIRS;
    match (nth, theirs) {
        (0, false) => random.pick(&[16, 100, 499_999]),
        (1, false) => random.pick(&[17, 101, 499_998]),
        (_, false) => 1_000 + nth,
        (0, true) => random.pick(&[500_000, 500_100, 1_048_575]),
        (1, true) => random.pick(&[500_001, 500_101, 1_048_574]),
        (_, true) => 501_000 + nth,
    }
}
