//! How often each act gave each answer, and which answers it can give.

use std::collections::BTreeMap;

/// How often each act gave each answer: 0 for a good one, else the number of the refusal.
#[derive(Default)]
pub struct Tally {
    counts: BTreeMap<String, BTreeMap<u8, u64>>,
}

impl Tally {
    pub fn count(&mut self, act: &str, number: u8) {
        let of_act = self.counts.entry(act.to_string()).or_default();
        *of_act.entry(number).or_default() += 1;
    }

    pub fn print(&self) {
        println!("how often each act gave each answer (0: a good one):");
        for (act, counts) in &self.counts {
            println!("  {act}: {counts:?}");
        }
    }

    /// Sees that every answer that an act can give was counted.
    pub fn assert_complete(&self) {
        for (act, numbers) in possible() {
            for number in numbers {
                let seen = self.counts[act].contains_key(&number);
                assert!(seen, "no case in which {act} answers {number}");
            }
        }
    }
}

/// The answers that each act can give.
fn possible() -> [(&'static str, Vec<u8>); 7] {
    let index = 0..=11;
    let image = 0..=16;
    [
        ("check", image.clone().collect()),
        ("find", index.chain([17, 18]).collect()),
        ("read_block", image.clone().chain([17, 18, 19]).collect()),
        ("read_point", image.clone().chain([17, 18, 23]).collect()),
        ("write", vec![0, 19, 20, 22]),
        ("unroll", image.clone().chain([19]).collect()),
        ("merge", image.chain([19, 21, 22]).collect()),
    ]
}
