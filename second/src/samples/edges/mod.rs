//! Boundary cases of document 01, listed and not thrown: each named list holds
//! both sides of some mark in every combination that seemed to matter.

mod blocks;
mod days;
mod ends;
mod layouts;

use super::Sample;
use super::draft::Draft;

/// The listed cases' own code and day, those of document 01's example.
const CODE: u32 = 300;
const DAY: u32 = 20240304;

type Maker = Box<dyn Fn(u64) -> Sample + Send + Sync>;

/// A list of cases, made one by one when they are asked for.
pub struct Edge {
    pub name: &'static str,
    pub count: u64,
    make: Maker,
}

impl Edge {
    fn new(
        name: &'static str,
        count: usize,
        make: impl Fn(usize) -> Sample + Send + Sync + 'static,
    ) -> Self {
        Edge { name, count: count as u64, make: Box::new(move |case| make(case as usize)) }
    }

    fn list(name: &'static str, samples: Vec<Sample>) -> Self {
        Edge::new(name, samples.len(), move |case| samples[case].clone())
    }

    pub fn sample(&self, case: u64) -> Sample {
        (self.make)(case)
    }
}

pub fn all() -> Vec<Edge> {
    [days::all(), layouts::all(), blocks::all(), ends::all()].into_iter().flatten().collect()
}

fn draft() -> Draft {
    Draft::new(CODE, DAY)
}

#[cfg(test)]
mod tests {
    use super::*;
    use crate::check;

    /// The lists are there to be judged: few of their files are refused, and
    /// in each list some file has a fault.
    #[test]
    fn edges_can_be_judged() {
        for edge in all() {
            let step = (edge.count / 500).max(1);
            let samples = (0..edge.count).step_by(step as usize).map(|case| edge.sample(case));
            let faulty = samples.filter(|Sample { code, day, file }| {
                check::refusal(file, *code, *day, [0; 3]).is_some()
                    || !check::faults(file, *code, *day).is_empty()
            });
            assert!(faulty.count() > 0, "{}", edge.name);
        }
    }
}
