//! How often each answer was given and other things happened, so that a test can say that it saw them all.
use std::collections::BTreeMap;

pub struct Tally([u64; 256]);

impl Tally {
    pub fn new() -> Tally {
        Tally([0; 256])
    }

    /// The number that a call returned.
    pub fn note(&mut self, number: u32) {
        self.0[number as usize] += 1;
    }

    /// These answers and no others, each at least so often.
    pub fn has_seen(&self, numbers: &[u32], least: u64) {
        let total: u64 = self.0.iter().sum();
        println!("{total} inputs: {:?}", numbers.iter().map(|&n| (n, self.0[n as usize])).collect::<Vec<_>>());
        for number in 0..256 {
            let seen = self.0[number as usize];
            let is_expected = numbers.contains(&number);
            assert!(if is_expected { seen >= least } else { seen == 0 }, "answer {number} was seen {seen} times");
        }
    }
}

/// How often things happened that have names.
pub struct Counts(BTreeMap<&'static str, u64>);

impl Counts {
    pub fn of<const N: usize>(names: [&'static str; N]) -> Counts {
        Counts(names.map(|name| (name, 0)).into())
    }

    pub fn note(&mut self, name: &'static str, is_so: bool) {
        *self.0.get_mut(name).expect(name) += u64::from(is_so);
    }

    /// Each at least so often.
    pub fn have_all_been(&self, least: u64) {
        println!("{:?}", self.0);
        assert!(self.0.values().all(|&times| times >= least), "{:?}", self.0);
    }
}
