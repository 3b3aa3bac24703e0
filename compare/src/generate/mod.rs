//! Cases from seeds: books good and damaged, and lines to play on them.

mod book;
mod damage;
mod line;

use crate::case::Case;
use crate::rng::Rng;
pub use damage::{damage, Damage};

/// The case of a seed. Three of eight books are damaged.
pub fn case(seed: u64) -> Case {
    let mut rng = Rng::new(seed);
    let plan = book::plan(&mut rng);
    let mut lines = book::lines(&mut rng, &plan);
    let damaged = rng.below(8) < 3;
    if damaged {
        let times = if rng.one_in(4) { 2 } else { 1 };
        for _ in 0..times {
            let kind = Damage::any(&mut rng);
            damage(&mut rng, &mut lines, kind);
        }
    } else if rng.one_in(50) {
        book::pad(&mut lines, crate::book::MAX_BYTES);
    }
    let events = match rng.below(8) {
        _ if damaged => rng.below(40),
        0 => rng.below(10),
        1 => rng.below(1000),
        _ => rng.below(250),
    };
    Case { book: book::text(&lines), line: line::line(&mut rng, &plan, events) }
}

/// A large organ of 5 divisions and 256 wires, and a long line as it is
/// played, for the benchmark.
pub fn large_case(seed: u64, events: usize) -> Case {
    let mut rng = Rng::new(seed);
    let plan = book::large_plan();
    let lines = book::plain_lines(&plan);
    Case { book: book::text(&lines), line: line::recital(&mut rng, &plan, events) }
}

/// The book of the large organ, with empty lines up to the longest length.
pub fn longest_book() -> Vec<u8> {
    let mut lines = book::plain_lines(&book::large_plan());
    book::pad(&mut lines, crate::book::MAX_BYTES);
    book::text(&lines)
}

#[cfg(test)]
mod tests {
    use super::*;
    use crate::listing::organ;

    #[test]
    fn good_books_are_good() {
        for seed in 0..300 {
            let mut rng = Rng::new(seed);
            let plan = book::plan(&mut rng);
            let text = book::text(&book::lines(&mut rng, &plan));
            assert_eq!(organ(&text).err(), None, "seed {seed}");
        }
        let large = organ(&large_case(1, 10).book).expect("a good book");
        assert_eq!((large.couplers.len(), large.stops.len()), (128, 128));
        assert_eq!(organ(&longest_book()).err(), None);
        assert_eq!(longest_book().len(), 65_536);
    }

    #[test]
    fn damage_does_what_it_says() {
        for (kind, number) in Damage::WITH_NUMBER {
            for seed in 0..200 {
                let mut rng = Rng::new(seed);
                let plan = book::plan(&mut rng);
                let mut lines = book::lines(&mut rng, &plan);
                damage(&mut rng, &mut lines, kind);
                let fault = organ(&book::text(&lines)).err().map(|fault| fault.number);
                assert_eq!(fault, Some(number), "seed {seed}");
            }
        }
    }

    #[test]
    fn a_seed_gives_one_case() {
        assert_eq!(case(17), case(17));
        assert_ne!(case(17), case(18));
    }
}
