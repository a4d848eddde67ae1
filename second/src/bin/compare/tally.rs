//! How often the reference met each rule and each refusal: a run that never
//! meets one says nothing about it.

use second::check::Record;

#[derive(Clone)]
pub struct Tally {
    rules: [u64; 64],
    refusals: [u64; 20],
    /// Answers of opening, adding and closing portions, 0 where it was done.
    portion_answers: [u64; 19],
    /// Answers of opening a sheet and of posting on one, 0 where it was done.
    sheet_answers: [u64; 23],
    /// Answers of a new register and of entering, 0 where one was written.
    register_answers: [u64; 30],
    /// Answers of delivering, 0 where an output file was written.
    delivery_answers: [u64; 35],
}

/// Every rule and every refusal that the C face can give.
const RULES: [std::ops::RangeInclusive<usize>; 3] = [1..=21, 23..=24, 30..=39];
const REFUSALS: [std::ops::RangeInclusive<usize>; 2] = [1..=6, 9..=16];
/// No 4: the rooms have one length by their types.
const PORTION_ANSWERS: [std::ops::RangeInclusive<usize>; 4] = [0..=3, 5..=6, 9..=9, 18..=18];
/// Checking's own among them; no rooms are lent, so 4 cannot be.
const SHEET_ANSWERS: [std::ops::RangeInclusive<usize>; 4] = [0..=3, 5..=6, 9..=9, 19..=22];
const REGISTER_ANSWERS: [std::ops::RangeInclusive<usize>; 4] = [0..=3, 5..=6, 9..=9, 23..=29];
const DELIVERY_ANSWERS: [std::ops::RangeInclusive<usize>; 2] = [0..=2, 30..=34];

impl Tally {
    pub fn new() -> Self {
        Tally {
            rules: [0; 64],
            refusals: [0; 20],
            portion_answers: [0; 19],
            sheet_answers: [0; 23],
            register_answers: [0; 30],
            delivery_answers: [0; 35],
        }
    }

    pub fn records(&mut self, records: &[Record]) {
        for &[_, rule, _] in records {
            self.rules[rule as usize] += 1;
        }
    }

    pub fn refusal(&mut self, number: u32) {
        self.refusals[number as usize] += 1;
    }

    pub fn portion_answer(&mut self, number: u32) {
        self.portion_answers[number as usize] += 1;
    }

    pub fn sheet_answer(&mut self, number: u32) {
        self.sheet_answers[number as usize] += 1;
    }

    pub fn register_answer(&mut self, number: u32) {
        self.register_answers[number as usize] += 1;
    }

    pub fn delivery_answer(&mut self, number: u32) {
        self.delivery_answers[number as usize] += 1;
    }

    pub fn add(&mut self, other: &Tally) {
        for (sum, more) in self.rules.iter_mut().zip(other.rules) {
            *sum += more;
        }
        for (sum, more) in self.refusals.iter_mut().zip(other.refusals) {
            *sum += more;
        }
        for (sum, more) in self.portion_answers.iter_mut().zip(other.portion_answers) {
            *sum += more;
        }
        for (sum, more) in self.sheet_answers.iter_mut().zip(other.sheet_answers) {
            *sum += more;
        }
        for (sum, more) in self.register_answers.iter_mut().zip(other.register_answers) {
            *sum += more;
        }
        for (sum, more) in self.delivery_answers.iter_mut().zip(other.delivery_answers) {
            *sum += more;
        }
    }

    /// The rules that were never broken.
    pub fn missing_rules(&self) -> Vec<usize> {
        RULES.into_iter().flatten().filter(|&rule| self.rules[rule] == 0).collect()
    }

    /// The refusals that were never given.
    pub fn missing_refusals(&self) -> Vec<usize> {
        REFUSALS.into_iter().flatten().filter(|&number| self.refusals[number] == 0).collect()
    }

    /// The answers of portions that were never given.
    pub fn missing_portion_answers(&self) -> Vec<usize> {
        let numbers = PORTION_ANSWERS.into_iter().flatten();
        numbers.filter(|&number| self.portion_answers[number] == 0).collect()
    }

    /// The answers of the sheet that were never given.
    pub fn missing_sheet_answers(&self) -> Vec<usize> {
        let numbers = SHEET_ANSWERS.into_iter().flatten();
        numbers.filter(|&number| self.sheet_answers[number] == 0).collect()
    }

    /// The answers of the register that were never given.
    pub fn missing_register_answers(&self) -> Vec<usize> {
        let numbers = REGISTER_ANSWERS.into_iter().flatten();
        numbers.filter(|&number| self.register_answers[number] == 0).collect()
    }

    /// The answers of delivering that were never given.
    pub fn missing_delivery_answers(&self) -> Vec<usize> {
        let numbers = DELIVERY_ANSWERS.into_iter().flatten();
        numbers.filter(|&number| self.delivery_answers[number] == 0).collect()
    }

    pub fn print(&self) {
        println!("\nhow often the reference met each rule:");
        print_table(RULES.into_iter().flatten().map(|rule| (rule, self.rules[rule])));
        println!("and each refusal:");
        print_table(REFUSALS.into_iter().flatten().map(|number| (number, self.refusals[number])));
        println!("and each answer of portions, 0 where it was opened, added to or closed:");
        let numbers = PORTION_ANSWERS.into_iter().flatten();
        print_table(numbers.map(|number| (number, self.portion_answers[number])));
        println!("and each answer of the sheet, 0 where it was opened or posted on:");
        let numbers = SHEET_ANSWERS.into_iter().flatten();
        print_table(numbers.map(|number| (number, self.sheet_answers[number])));
        println!("and each answer of the register, 0 where one was written:");
        let numbers = REGISTER_ANSWERS.into_iter().flatten();
        print_table(numbers.map(|number| (number, self.register_answers[number])));
        println!("and each answer of delivering, 0 where a file was written:");
        let numbers = DELIVERY_ANSWERS.into_iter().flatten();
        print_table(numbers.map(|number| (number, self.delivery_answers[number])));
    }
}

fn print_table(entries: impl Iterator<Item = (usize, u64)>) {
    let entries: Vec<_> = entries.collect();
    for row in entries.chunks(6) {
        let cells = row.iter().map(|(number, hits)| format!("{number:4} {hits:10}"));
        println!("{}", cells.collect::<Vec<_>>().join(" |"));
    }
}
