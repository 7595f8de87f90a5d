//! The draws that random tables and damaged files are made of, and a count of those that gave up.

use crate::splitmix::Random;

/// The seed among the last words of a command line: 1 if there is none.
pub fn seed(words: &[String]) -> Option<u64> {
    match words {
        [] => Some(1),
        [seed] => seed.parse().ok(),
        _ => None,
    }
}

pub struct Draws {
    random: Random,
    /// How often no fitting table was found, and a table of one row taken in its place.
    pub given_up: u64,
}

impl Draws {
    pub fn seeded(seed: u64) -> Draws {
        Draws {
            random: Random(seed),
            given_up: 0,
        }
    }

    /// The draws of case number `index`: the same in every run with the same seed.
    pub fn of_case(seed: u64, index: usize) -> Draws {
        let start = Draws::seeded((seed << 32) ^ index as u64).next();
        Draws::seeded(start)
    }

    pub fn next(&mut self) -> u64 {
        self.random.next()
    }

    /// From `least` up to and with `most`.
    pub fn between(&mut self, least: u64, most: u64) -> u64 {
        self.random.between(least, most)
    }

    /// From 0 up to, and without, `end`.
    pub fn below(&mut self, end: usize) -> usize {
        self.between(0, end.max(1) as u64 - 1) as usize
    }

    /// Like `between`, but each length in bits is about as likely.
    pub fn any_size(&mut self, least: u64, most: u64) -> u64 {
        let spread = most.max(least) - least + 1;
        let bits = self.between(0, u64::from(spread.ilog2()));
        least + self.next() % (2u64 << bits).min(spread)
    }

    pub fn one_in(&mut self, chances: u64) -> bool {
        self.between(1, chances) == 1
    }

    pub fn pick<T: Copy>(&mut self, from: &[T]) -> T {
        from[self.below(from.len())]
    }

    /// `count` different numbers from `least` to `most`, often with the ends among them.
    pub fn different(&mut self, count: usize, least: u64, most: u64) -> Vec<u64> {
        let mut numbers: Vec<u64> = Vec::new();
        while numbers.len() < count {
            let drawn = self.between(least, most);
            let number = if self.one_in(8) {
                self.pick(&[least, most])
            } else {
                drawn
            };
            if !numbers.contains(&number) {
                numbers.push(number);
            }
        }
        numbers
    }
}
