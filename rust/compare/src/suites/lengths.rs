//! Table slices of every awkward length, with sound and other words in them.

use crate::{cases, Compared, Outcome};
use model::random::Random;
use model::tables::samples;
use model::Rect;

pub const SEED: u64 = 102;
pub const LENGTHS: [usize; 10] = [0, 1, 2, 3, 44, 45, 14_324, 14_325, 14_326, 20_000];

pub fn lengths(compared: &mut Compared) -> Outcome {
    let mut random = Random::new(SEED);
    for (name, words) in contents(&mut random) {
        for length in LENGTHS {
            compared.case(format!("{length} words of {name}, seed {SEED}"));
            all_calls(compared, &words[..length])?;
        }
    }
    Ok(())
}

/// 20,000 words each. What stands after a sample's table is not zero.
pub fn contents(random: &mut Random) -> Vec<(&'static str, Vec<u32>)> {
    let mut contents = samples();
    for (_, words) in &mut contents {
        words.resize_with(20_000, || random.word() | 1);
    }
    contents.push(("zeros", vec![0; 20_000]));
    contents.push(("ones", vec![1; 20_000]));
    contents.push(("largest words", vec![u32::MAX; 20_000]));
    contents.push(("any words", (0..20_000).map(|_| random.word()).collect()));
    contents
}

fn all_calls(compared: &mut Compared, words: &[u32]) -> Outcome {
    let rect = Rect::new(3, 4, 30, 40);
    let equal = [1 << 5];
    compared.check(words)?;
    compared.empty(&mut words.to_vec())?;
    for number in [0, 7, 1023, 1024] {
        compared.place(&mut words.to_vec(), number, rect)?;
    }
    for length in [0, 1, 8, 9, 340, 341, 1023, 1024, 1025] {
        compared.query(words, rect, &equal, length)?;
        compared.opened_pages(words, rect, &equal, length)?;
    }
    for rect in cases::edge_cases() {
        compared.place(&mut words.to_vec(), 500, rect)?;
        compared.query(words, rect, &equal, 1024)?;
        compared.opened_pages(words, rect, &equal, 1024)?;
    }
    Ok(())
}
