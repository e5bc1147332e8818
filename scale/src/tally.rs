//! What is counted, and the differences that are kept.

use oracle::answering::Counts;

/// How many differences are kept of those that are found.
const KEPT: usize = 5;

/// How long a search is to be counted, by the total over which it is.
pub const LONG: [(&str, u64); 2] = [("totals over 10,000", 10_000), ("totals over 1,000,000", 1_000_000)];

/// A difference: which image of its group, its bytes, and what each side says.
#[derive(Clone, Debug, PartialEq, Eq)]
pub struct Difference {
    pub index: usize,
    pub kind: String,
    pub image: Vec<u8>,
    pub told: String,
}

/// The counts over some images; the same in whichever order they are compared.
#[derive(Clone, Debug, Default, PartialEq, Eq)]
pub struct Tally {
    pub images: u64,
    /// How often the original gave each answer.
    pub answers: Counts,
    /// How many calls of each sort were compared.
    pub calls: Counts,
    /// How many totals are over those of `LONG`.
    pub totals: Counts,
    pub greatest_total: u64,
    pub differences: u64,
    /// The first differences.
    pub first: Vec<Difference>,
}

impl Tally {
    /// One more call of a sort.
    pub fn call(&mut self, sort: &str) {
        self.calls.add(sort, 1);
    }

    /// The total of an unstopped run.
    pub fn total(&mut self, total: u64) {
        self.greatest_total = self.greatest_total.max(total);
        self.calls.add("assignments of the unstopped runs", total);
        LONG.into_iter().filter(|(_, bound)| total > *bound).for_each(|(name, _)| self.totals.add(name, 1));
    }

    /// A difference.
    pub fn differs(&mut self, difference: Difference) {
        self.differences += 1;
        self.keep(vec![difference]);
    }

    /// Those of another tally of the same group too.
    pub fn join(&mut self, other: Tally) {
        self.images += other.images;
        self.answers.join(other.answers);
        self.calls.join(other.calls);
        self.totals.join(other.totals);
        self.greatest_total = self.greatest_total.max(other.greatest_total);
        self.differences += other.differences;
        self.keep(other.first);
    }

    /// Of these differences and those before the first ones.
    fn keep(&mut self, others: Vec<Difference>) {
        self.first.extend(others);
        self.first.sort_by_key(|difference| difference.index);
        self.first.truncate(KEPT);
    }
}
