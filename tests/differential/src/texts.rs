//! Script texts through the proved formatter and checksum, and through the reference.

use crate::loan::{FORMAT, Lender};
use crate::met::Met;
use crate::programs::Programs;
use crate::tally::Tally;
use differential::library;
use generate::random::Random;
use generate::texts;
use reference::difference::{Difference, equal};
use reference::{script, stamp};

/// Tries the fixed texts and so many random ones.
pub fn run(count: usize, seed: u64, programs: &Programs, tally: &mut Tally) {
    let mut random = Random::new(seed);
    let mut lender = Lender::new(FORMAT, !seed);
    // Cuts the texts. It is not the texts' generator: a failure does not change later texts.
    let mut cuts = Random::new(!seed);
    let mut met = Met::default();
    let fixed = texts::fixed(&mut random).into_iter().map(|text| (text, true));
    let any = (0..count).map(|index| (texts::any(&mut random), programs.are_due(index)));
    for (text, with_programs) in fixed.chain(any) {
        met.count(&text);
        let expected = script::format(&text);
        let in_process = lender.lend_all(&text, &expected).and_then(|()| checksum(&mut cuts, &text));
        let result = match in_process {
            Ok(()) if with_programs => programs.compare_text(&text, &expected),
            result => result,
        };
        tally.count("text", &text, result);
    }
    println!("{met}");
    tally.never(met.never());
}

/// The stamp of the whole, from 0 and from any sum, and of the text in random pieces.
fn checksum(random: &mut Random, text: &[u8]) -> Result<(), Difference> {
    let start = random.word() as u32;
    for (place, sum) in [("lizkorpe_checksum from 0", 0), ("lizkorpe_checksum from a sum", start)] {
        equal_sums(place, stamp::from(sum, text), library::checksum(sum, text))?;
    }
    let (mut sum, mut rest) = (0, text);
    while !rest.is_empty() {
        let (piece, behind) = rest.split_at(random.below(rest.len() + 1));
        (sum, rest) = (library::checksum(sum, piece), behind);
    }
    equal_sums("lizkorpe_checksum in pieces", stamp::stamp(text), sum)
}

fn equal_sums(place: &str, expected: u32, found: u32) -> Result<(), Difference> {
    equal(place, expected.to_string().as_bytes(), found.to_string().as_bytes())
}
