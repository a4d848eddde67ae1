//! A group of comparisons: a name, and cases that are run one by one.

use second::samples::dice::Dice;

use crate::judge::Judge;

type Run = Box<dyn Fn(&mut Judge, &mut Dice, u64) + Sync>;

pub struct Group {
    pub name: &'static str,
    pub cases: u64,
    /// Another seed gives other cases: worth running again.
    pub is_random: bool,
    pub run: Run,
}

impl Group {
    pub fn listed(
        name: &'static str,
        cases: u64,
        run: impl Fn(&mut Judge, &mut Dice, u64) + Sync + 'static,
    ) -> Self {
        Group { name, cases, is_random: false, run: Box::new(run) }
    }

    pub fn random(
        name: &'static str,
        cases: u64,
        run: impl Fn(&mut Judge, &mut Dice, u64) + Sync + 'static,
    ) -> Self {
        Group { name, cases, is_random: true, run: Box::new(run) }
    }
}
