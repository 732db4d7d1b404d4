//! Inputs of the whole program through the proved desk, through the reference's desk and through the replay.

use crate::loan::{DESK, Lender};
use crate::programs::Programs;
use crate::tally::Tally;
use generate::met::Met;
use generate::random::Random;
use generate::steps;
use reference::difference::Difference;
use reference::{replay, session};

/// Tries the fixed inputs and so many random ones.
pub fn run(count: usize, seed: u64, programs: &Programs, tally: &mut Tally) {
    let mut random = Random::new(seed);
    let mut test = Test { random: Random::new(!seed), lender: Lender::new(DESK, !seed), fed: 0 };
    let mut met = Met::default();
    let fixed = steps::fixed(&mut random).into_iter().map(|input| (input, true));
    let any = (0..count).map(|index| (steps::any(&mut random), programs.are_due(index)));
    for (input, with_programs) in fixed.chain(any) {
        let expected = session::run(&input);
        met.count(&input, &expected);
        let in_process = test.compare(&input, &expected);
        let result = match in_process {
            Ok(()) if with_programs => programs.compare_desk(&input, &expected),
            result => result,
        };
        tally.count("input", &input, result);
    }
    let Test { fed, lender: Lender { short, .. }, .. } = test;
    println!("{met}\ncalls fed to the replay: {fed}; buffers refused, 14: {short}");
    tally.never(met.never() + usize::from(fed == 0) + usize::from(short == 0));
}

struct Test {
    /// Cuts inputs and orders recoveries. It is not the inputs' generator: a failure does not change later inputs.
    random: Random,
    lender: Lender,
    /// The calls that the replay was fed.
    fed: usize,
}

impl Test {
    /// The input as it is, with buffers of many lengths; stopped somewhere; and with a recovery by steps behind it.
    fn compare(&mut self, input: &[u8], expected: &[u8]) -> Result<(), Difference> {
        self.lender.lend_all(input, expected)?;
        self.fed += replay::check(input, expected)?;
        let stopped = steps::stopped(&mut self.random, input);
        let recovered = steps::recovered(&mut self.random, input);
        for input in [Some(stopped), recovered].into_iter().flatten() {
            let expected = session::run(&input);
            self.lender.lend_spare(&input, &expected)?;
            self.fed += replay::check(&input, &expected)?;
        }
        Ok(())
    }
}
