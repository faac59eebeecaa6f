//! What is told in the end of the accepted columns of addresses that were held to the crate's.
use crate::run;
use crate::wire::{IP, Input, Listing};

#[derive(Default)]
pub struct Listeners {
    /// By mode and class.
    columns: [[u64; 3]; 2],
    /// Of segments that were converted, of kind 3 before.
    converted: u64,
    alive: u64,
    required: u64,
    without_value: u64,
    most_values: usize,
}

impl Listeners {
    /// `input`: what the crate joins.
    pub fn count(&mut self, input: &Input, l: &Listing) {
        if l.ty != IP || run::beyond_the_crate(input) {
            return;
        }
        self.columns[input.mode as usize][l.class as usize] += 1;
        self.converted += input.segs.iter().any(|s| s.kind == 3) as u64;
        self.alive += input.segs.iter().any(|s| s.alive.is_some()) as u64;
        self.required += (input.required == IP) as u64;
        self.without_value += l.values.is_empty() as u64;
        self.most_values = self.most_values.max(l.values.len());
    }

    pub fn add(&mut self, other: &Listeners) {
        let each = self.columns.as_flattened_mut().iter_mut();
        each.zip(other.columns.as_flattened()).for_each(|(a, b)| *a += b);
        self.converted += other.converted;
        self.alive += other.alive;
        self.required += other.required;
        self.without_value += other.without_value;
        self.most_values = self.most_values.max(other.most_values);
    }

    pub fn print(&self) {
        let sum = |classes: &[u64]| classes.iter().sum::<u64>();
        let of_mode = |mode: usize| {
            let c = &self.columns[mode];
            format!("{} (class 0 {}, 1 {}, 2 {})", sum(c), c[0], c[1], c[2])
        };
        println!(
            "columns of addresses beside the crate's: accepted {}: stacked {}, ordered {}; \
             of segments of kind 3, converted, {}, with alive sets {}, with type 6 required {}, \
             without a value {}; most addresses in one column {}",
            sum(self.columns.as_flattened()),
            of_mode(0),
            of_mode(1),
            self.converted,
            self.alive,
            self.required,
            self.without_value,
            self.most_values
        );
    }
}
