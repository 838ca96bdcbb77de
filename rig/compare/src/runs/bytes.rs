//! Bytes that are no image, or nearly one.

use model::noise::{self, Noise, Tally};

use super::images::{reader_loans, resize_one};
use crate::check::Comparison;
use crate::kernel::{Call, Loans};
use crate::random::Random;

/// Noise of any length up to that of two large images.
fn long_noise(random: &mut Random) -> Vec<u8> {
    let length = random.below(100_000);
    (0..length).map(|_| random.word() as u8).collect()
}

/// Has the reader read these loans' bytes, and counts the answer. A refusal must leave every loan.
fn read(comparison: &mut Comparison, loans: &Loans, tally: &mut Tally) {
    let (answer, after) = comparison.check(&Call::ReadImage, loans);
    assert!(answer.0 == 0 || after.first_difference(loans, true).is_none(), "the model wrote before it refused");
    tally.count(answer);
}

/// Long inputs: plain noise, and cases of every kind with up to 3,000 darts.
fn long_inputs(comparison: &mut Comparison, random: &mut Random, noise: &mut Noise, tallies: &mut [Tally]) {
    let mut loans = reader_loans(3000);
    loans.bytes = long_noise(random);
    read(comparison, &loans, &mut tallies[noise::KINDS]);
    loans.bytes = noise::case(random.below(noise::KINDS), 3000, noise);
    read(comparison, &loans, &mut tallies[noise::KINDS + 1]);
}

/// Plain noise of many lengths, and noise in which more and more of an image is put right
/// (`model::noise`), into loans that fit and that don't. Gives a line for each kind: what came of it.
pub fn bytes(comparison: &mut Comparison, rounds: usize, seed: u64) -> Vec<String> {
    let mut random = Random::new(seed);
    let mut noise = Noise::new(seed as u32);
    let mut tallies = vec![Tally::default(); noise::KINDS + 2];
    for round in 0..rounds {
        comparison.maps += 1;
        let kind = round % noise::KINDS;
        let most = *random.pick(&[6, 6, 6, 60]);
        let mut loans = reader_loans(most);
        loans.bytes = noise::case(kind, most, &mut noise);
        if random.percent(10) {
            resize_one(&mut random, &mut loans);
        }
        read(comparison, &loans, &mut tallies[kind]);
        if round % 256 == 0 {
            long_inputs(comparison, &mut random, &mut noise, &mut tallies);
        }
    }
    let names = noise::NAMES.into_iter().chain(["long noise", "large, any kind"]);
    names.zip(tallies).map(|(name, tally)| format!("{name}: {tally}; ShortLoan {}", tally.short_loan)).collect()
}
