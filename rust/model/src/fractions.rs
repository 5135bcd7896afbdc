//! Exact fractions: shares of a way, and the numbers that stand there.

use std::cmp::Ordering;

/// A fraction; what stands under the line is above zero.
#[derive(Clone, Copy, Debug)]
pub struct Fraction {
    over: i128,
    under: i128,
}

impl Fraction {
    pub const ZERO: Fraction = Fraction { over: 0, under: 1 };
    pub const ONE: Fraction = Fraction { over: 1, under: 1 };

    pub fn whole(number: u32) -> Fraction {
        Fraction {
            over: i128::from(number),
            under: 1,
        }
    }

    /// The share of the way from `from` to `to` that leads to `at`: 0 at
    /// `from`, 1 at `to`. The two differ.
    pub fn share(from: u32, to: u32, at: u32) -> Fraction {
        let (gone, way) = (step(from, at), step(from, to));
        Fraction {
            over: gone * way.signum(),
            under: way.abs(),
        }
    }

    /// The number to which this share of the way from `from` to `to` leads.
    pub fn along(self, from: u32, to: u32) -> Fraction {
        Fraction {
            over: i128::from(from) * self.under + self.over * step(from, to),
            under: self.under,
        }
    }
}

fn step(from: u32, to: u32) -> i128 {
    i128::from(to) - i128::from(from)
}

impl Ord for Fraction {
    fn cmp(&self, other: &Fraction) -> Ordering {
        (self.over * other.under).cmp(&(other.over * self.under))
    }
}

impl PartialOrd for Fraction {
    fn partial_cmp(&self, other: &Fraction) -> Option<Ordering> {
        Some(self.cmp(other))
    }
}

impl PartialEq for Fraction {
    fn eq(&self, other: &Fraction) -> bool {
        self.cmp(other) == Ordering::Equal
    }
}

impl Eq for Fraction {}

#[cfg(test)]
mod tests {
    use super::*;

    #[test]
    fn shares_of_a_way() {
        assert_eq!(Fraction::share(10, 20, 10), Fraction::ZERO);
        assert_eq!(Fraction::share(10, 20, 20), Fraction::ONE);
        assert_eq!(Fraction::share(20, 10, 10), Fraction::ONE);
        assert_eq!(Fraction::share(10, 20, 15), Fraction::share(3, 1, 2));
        assert!(Fraction::share(10, 20, 9) < Fraction::ZERO);
        assert!(Fraction::share(20, 10, 9) > Fraction::ONE);
    }

    #[test]
    fn a_share_leads_back() {
        for (from, to) in [(0, 3), (3, 0), (7, 1_000_000), (1_000_000, 7)] {
            for at in [0, 1, 2, 3, 7, 999_999, 1_000_000] {
                let share = Fraction::share(from, to, at);
                assert_eq!(share.along(from, to), Fraction::whole(at));
            }
        }
    }

    #[test]
    fn thirds_stand_between_whole_numbers() {
        let third = Fraction::share(0, 3, 1);
        let at = third.along(0, 100);
        assert!(Fraction::whole(33) < at && at < Fraction::whole(34));
        assert_eq!(third.along(5, 5), Fraction::whole(5));
        assert_eq!(third.along(9, 3), Fraction::whole(7));
    }
}
