//! Counts how often a call was accepted and how often each refusal came, so that a test can ask for enough of each.

use circle_median::Refusal;

pub struct Tally {
    name: &'static str,
    /// Accepted calls at 0, refusals at their numbers.
    counts: [u32; 14],
}

impl Tally {
    pub fn of(name: &'static str) -> Self {
        Tally { name, counts: [0; 14] }
    }

    pub fn count<T>(&mut self, answer: &Result<T, Refusal>) {
        let number = answer.as_ref().err().map_or(0, |refusal| refusal.number());
        self.counts[number as usize] += 1;
    }

    /// Fails unless acceptance (0) and each of these refusals came at least `least` times, and no other at all.
    pub fn must_have(&self, numbers: &[usize], least: u32) {
        println!("{}: {} calls, accepted and refused {:?}", self.name, self.counts.iter().sum::<u32>(), self.counts);
        for (number, &count) in self.counts.iter().enumerate() {
            let enough = if numbers.contains(&number) { count >= least } else { count == 0 };
            assert!(enough, "{}: number {number} came {count} times", self.name);
        }
    }
}
