//! The comparison of single calls: what the reference says against what the
//! library answers and leaves in the memory lent to it.

use second::account::{self, Halves};
use second::check;
use second::deliver::{self, Delivery};
use second::derive;
use second::heading;
use second::register::{self, Register};
use second::samples::dice::Dice;
use second::samples::{Job, Sample};
use second::sheet::{self, TURNOVERS};

use crate::face;
use crate::lent::Lent;
use crate::report;
use crate::tally::Tally;

/// Mismatches told in full by each thread in each group; the rest is counted.
const TOLD: usize = 2;

/// Patterns for lent memory: one that stands out, and some that could be taken
/// for records that are already entered.
const PATTERNS: [u32; 4] = [0xC5C5_C5C5, 0, 1, u32::MAX];

/// What may lie before and behind a file in memory.
const AROUND: [&[u8]; 6] = [b"", b"\x1a", b"\r\n\x1a", b"\n", b"HD:11 \x1a", b"   \r\n"];

/// Around a sheet: no turnover that any group uses.
const BESIDE: i64 = -0x5A5A_5A5A_5A5A_5A5A;

/// What the reference says of a file: its faults or a refusal.
type Verdict = Result<Vec<check::Record>, u32>;

pub struct Judge {
    pub tally: Tally,
    pub comparisons: u64,
    pub failed: u64,
    pub told: Vec<String>,
}

impl Judge {
    pub fn new() -> Self {
        Judge { tally: Tally::new(), comparisons: 0, failed: 0, told: Vec::new() }
    }

    pub fn add(&mut self, other: Judge) {
        self.tally.add(&other.tally);
        self.comparisons += other.comparisons;
        self.failed += other.failed;
        self.told.extend(other.told);
    }

    pub fn fail(&mut self, story: impl FnOnce() -> String) {
        self.failed += 1;
        if self.told.len() < TOLD {
            self.told.push(story());
        }
    }

    /// A small file, with bytes around it in memory that must not be seen.
    pub fn small(&mut self, sample: &Sample, dice: &mut Dice) {
        let (before, behind) = (dice.pick(&AROUND), dice.pick(&AROUND));
        let memory = [before, &sample.file, behind].concat();
        let file = &memory[before.len()..memory.len() - behind.len()];
        self.lent(Job { file, ..sample.job() }, dice);
    }

    /// A file where it stands in memory: the total, and lists with no room,
    /// little, just enough and more than enough.
    pub fn lent(&mut self, job: Job, dice: &mut Dice) {
        let verdict = self.verdict(job);
        let total = verdict.as_ref().map_or(4, Vec::len);
        let few = dice.range(2, 8) as usize;
        let many = total + dice.range(1, 24) as usize;
        let rooms = [many, total, few, 1, 0].map(|room| (room, dice.pick(&PATTERNS)));
        self.compare(job, &verdict, &rooms);
        if dice.once_in(16) {
            let mut rooms = [few; 3];
            rooms[dice.place(3)] = dice.pick(&[0, few - 1, few + 1, many + few]);
            self.uneven_rooms(job, rooms);
        }
    }

    /// A large file: fewer lists, but the longest ones too.
    pub fn large(&mut self, job: Job) {
        let verdict = self.verdict(job);
        let total = verdict.as_ref().map_or(4, Vec::len);
        let rooms = [256, 1_000_000, total + 5].map(|room| (room, PATTERNS[0]));
        self.compare(job, &verdict, &rooms);
    }

    /// What the reference says, entered in the tally.
    pub fn verdict(&mut self, job: Job) -> Verdict {
        let verdict = verdict(job);
        match &verdict {
            Ok(records) => self.tally.records(records),
            Err(number) => self.tally.refusal(*number),
        }
        verdict
    }

    /// The total, and lists with these rooms and patterns. One difference is
    /// enough for a file.
    fn compare(&mut self, job: Job, verdict: &Verdict, rooms: &[(usize, u32)]) {
        self.comparisons += 1 + rooms.len() as u64;
        if let Some(difference) = first_difference(job, verdict, rooms) {
            self.fail(|| report::file(job, &difference, &any_difference));
        }
    }

    /// Slices of different length: always a refusal, not always number 4. Equal
    /// ones that are not refused are left to the other comparisons.
    pub fn uneven_rooms(&mut self, job: Job, rooms: [usize; 3]) {
        let Some(number) = check::refusal(job.file, job.code, job.day, rooms) else {
            return;
        };
        self.comparisons += 1;
        self.tally.refusal(number);
        if let Some(difference) = list_differs(job, &Err(number), rooms, PATTERNS[0]) {
            self.fail(|| report::file(job, &difference, &|_| None));
        }
    }

    pub fn tell(&mut self, text: &[u8], outcome: u32, standing: u32) {
        self.comparisons += 1;
        let answer = derive::tell(text, outcome, standing);
        if let Err(refusal) = answer {
            self.tally.refusal(refusal);
        }
        let (mut kind, mut recipient) = (PATTERNS[0], !PATTERNS[0]);
        let (told_kind, told_recipient) = answer.unwrap_or((kind, recipient));
        let found = face::tell(text, outcome, standing, &mut kind, &mut recipient);
        if (found, kind, recipient) != (answer.err().unwrap_or(0), told_kind, told_recipient) {
            self.fail(|| report::told(text, (outcome, standing), answer, (found, kind, recipient)));
        }
    }

    pub fn derive(
        &mut self,
        text: &[u8],
        outcome: u32,
        standing: u32,
        number: u32,
        target_length: usize,
    ) {
        self.comparisons += 1;
        let mut expected = [0; heading::LENGTH];
        let room = target_length.min(heading::LENGTH);
        let answer = derive::derive(text, outcome, standing, number, &mut expected[..room]);
        let written = if answer.is_ok() { &expected[..] } else { &[] };
        if let Err(refusal) = answer {
            self.tally.refusal(refusal);
        }
        let mut target = Lent::new(target_length, 0xA5);
        let found = face::derive(text, outcome, standing, number, target.lend());
        if found != answer.err().unwrap_or(0) || !target.holds(written.iter().copied()) {
            let target = target.lend();
            self.fail(|| {
                report::derived(
                    text,
                    (outcome, standing, number),
                    (answer, written),
                    (found, target),
                )
            });
        }
    }

    pub fn account(&mut self, prefix: &[u8], number: &[u8]) {
        self.comparisons += 1;
        let answer = account::check(prefix, number);
        if let Err(refusal) = answer {
            self.tally.refusal(refusal);
        }
        // No answer beforehand, then each of them: a write and one left out would show.
        for before in [u32::MAX, 0, 1, 2] {
            let mut after = (before, before);
            let found = face::account(prefix, number, (&mut after.0, &mut after.1));
            let expected = answer.map_or((before, before), Halves::numbers);
            if found != answer.err().unwrap_or(0) || after != expected {
                self.fail(|| report::account(prefix, number, answer, (found, before, after)));
            }
        }
    }

    /// Opens a sheet in memory that holds this number everywhere.
    pub fn open(&mut self, codes: &[u32], held: i64) {
        let before = [held; TURNOVERS];
        let mut expected = before;
        let answer = sheet::open(codes, &mut expected);
        let mut lent = Lent::of(&before, BESIDE);
        let found = face::sheet_open(codes, lent.lend_array());
        self.sheet((answer, &expected), (found, lent), || report::opening(codes));
    }

    /// Posts a file on a sheet, which is afterwards as the reference says.
    pub fn post(&mut self, codes: &[u32], turnovers: &mut [i64; TURNOVERS], job: Job) -> bool {
        let Job { code, day, file } = job;
        let mut lent = Lent::of(turnovers, BESIDE);
        let found = face::sheet_post(codes, lent.lend_array(), file, code, day);
        let answer = sheet::post(codes, turnovers, file, code, day);
        self.sheet((answer, turnovers), (found, lent), || report::posting(codes, job));
        answer.is_ok()
    }

    /// The number, all turnovers and what lies around them.
    fn sheet(
        &mut self,
        (answer, expected): (Result<(), u32>, &[i64]),
        (found, mut lent): (u32, Lent<i64>),
        story: impl FnOnce() -> String,
    ) {
        self.comparisons += 1;
        let number = answer.err().unwrap_or(0);
        self.tally.sheet_answer(number);
        if found != number || !lent.holds(expected.iter().copied()) {
            self.fail(|| report::sheet(&story(), (answer, expected), (found, lent.lend())));
        }
    }

    /// A new register in a target of this length.
    pub fn blank(&mut self, code: u32, room: usize) {
        let answer = register::blank(code, room);
        let mut target = Lent::new(room, 0xA5);
        let found = face::register_new(code, target.lend());
        self.register(&answer, found, target, || report::blank(code, room));
    }

    /// Enters a file in a register; the new one, where it is not refused.
    pub fn enter(&mut self, register: &[u8], job: Job, room: usize) -> Option<Vec<u8>> {
        const BEFORE: usize = 0xC5C5_C5C5;
        let Job { code, day, file } = job;
        let answer = register::enter(register, file, code, day, room);
        let mut target = Lent::new(room, 0xA5);
        let mut written = BEFORE;
        let found = face::register_enter(register, file, code, day, target.lend(), &mut written);
        if written != answer.as_ref().map_or(BEFORE, Vec::len) {
            self.fail(|| format!("{written} written: {}", report::entering(register, job, room)));
        }
        // What is written can be entered in again.
        if answer.as_ref().is_ok_and(|bytes| Register::read(bytes).is_none()) {
            self.fail(|| format!("no register: {}", report::entering(register, job, room)));
        }
        self.register(&answer, found, target, || report::entering(register, job, room));
        answer.ok()
    }

    /// The number, the bytes written and all others of the target.
    fn register(
        &mut self,
        answer: &Result<Vec<u8>, u32>,
        found: u32,
        mut target: Lent<u8>,
        story: impl FnOnce() -> String,
    ) {
        self.comparisons += 1;
        let number = answer.as_ref().err().copied().unwrap_or(0);
        self.tally.register_answer(number);
        let written = answer.as_deref().unwrap_or(&[]);
        if found != number || !target.holds(written.iter().copied()) {
            self.fail(|| report::register(&story(), (number, written), (found, target.lend())));
        }
    }

    /// Delivers from slices with other bytes and numbers around them, into targets
    /// of just the length, one byte less, and more.
    pub fn parcel(&mut self, delivery: &Delivery, dice: &mut Dice) {
        let (before, behind) = (dice.pick(&AROUND), dice.pick(&AROUND));
        let memory = [before, delivery.items, behind].concat();
        let around = |numbers: &[u32]| [&[1][..], numbers, &[1]].concat();
        let (outcomes, standings) = (around(delivery.outcomes), around(delivery.standings));
        let delivery = Delivery {
            items: &memory[before.len()..memory.len() - behind.len()],
            outcomes: &outcomes[1..outcomes.len() - 1],
            standings: &standings[1..standings.len() - 1],
            ..*delivery
        };
        let length = deliver::deliver(&delivery, usize::MAX).map_or(40, |file| file.len());
        for room in [length + dice.place(60), length, length - 1, dice.place(length)] {
            self.deliver(&delivery, room);
        }
    }

    /// Delivers into a target of this length: the number, the length, the bytes
    /// written and all others of the target.
    pub fn deliver(&mut self, delivery: &Delivery, room: usize) {
        const BEFORE: u64 = 0xC5C5_C5C5_C5C5_C5C5;
        self.comparisons += 1;
        let answer = deliver::deliver(delivery, room);
        let number = answer.as_ref().err().copied().unwrap_or(0);
        self.tally.delivery_answer(number);
        let file = answer.as_deref().unwrap_or(&[]);
        let length = answer.as_ref().map_or(BEFORE, |file| file.len() as u64);
        if file.len() > delivery_most(delivery) {
            self.fail(|| format!("{} bytes are not always enough", delivery_most(delivery)));
        }
        let mut target = Lent::new(room, 0xA5);
        let mut written = BEFORE;
        let found = face::deliver(delivery, target.lend(), &mut written);
        if (found, written) != (number, length) || !target.holds(file.iter().copied()) {
            let found = (found, written, &*target.lend());
            self.fail(|| report::delivered(delivery, (number, length, file), found));
        }
    }

    pub fn show(&mut self, turnover: i64) {
        self.comparisons += 1;
        let expected = sheet::show(turnover);
        let mut text = Lent::new(20, 0xA5);
        let found = face::turnover_text(turnover, text.lend_array());
        if found != expected.len() || !text.holds(expected.bytes()) {
            self.fail(|| report::shown_turnover(turnover, &expected, found, text.lend()));
        }
    }
}

/// What the header says is always enough for an output file.
fn delivery_most(delivery: &Delivery) -> usize {
    delivery.items.len() + 9 * delivery.outcomes.len() + 400
}

fn verdict(Job { code, day, file }: Job) -> Verdict {
    match check::refusal(file, code, day, [0; 3]) {
        Some(number) => Err(number),
        None => Ok(check::records(file, code, day)),
    }
}

/// The expected return value and the total afterwards.
fn expected(verdict: &Verdict, before: u64) -> (u32, u64) {
    match verdict {
        Ok(records) => (0, records.len() as u64),
        Err(number) => (*number, before),
    }
}

fn first_difference(job: Job, verdict: &Verdict, rooms: &[(usize, u32)]) -> Option<String> {
    let mut rooms = rooms.iter();
    let list = |&(room, pattern)| list_differs(job, verdict, [room; 3], pattern);
    rooms.find_map(list).or_else(|| total_differs(job, verdict))
}

/// Any difference at all, for making a file smaller that has one. The widest
/// room comes first: it tells most.
fn any_difference(job: Job) -> Option<String> {
    let verdict = verdict(job);
    let total = verdict.as_ref().map_or(4, Vec::len);
    let wide = PATTERNS.map(|pattern| (total + 9, pattern));
    let narrow = [total, 3, 1, 0].map(|room| (room, PATTERNS[0]));
    first_difference(job, &verdict, &[wide, narrow].concat())
}

fn total_differs(Job { code, day, file }: Job, verdict: &Verdict) -> Option<String> {
    const BEFORE: u64 = 0xC5C5_C5C5_C5C5_C5C5;
    let mut total = BEFORE;
    let answer = face::total(file, code, day, &mut total);
    let (found, expected) = ((answer, total), expected(verdict, BEFORE));
    (found != expected).then(|| format!("certis_total: {}", report::answers(expected, found)))
}

fn list_differs(
    Job { code, day, file }: Job,
    verdict: &Verdict,
    rooms: [usize; 3],
    pattern: u32,
) -> Option<String> {
    let before = u64::from(pattern);
    let mut slices = rooms.map(|room| Lent::new(room, pattern));
    let mut total = before;
    let answer = face::check(file, code, day, slices.each_mut().map(Lent::lend), &mut total);
    let (found, expected) = ((answer, total), expected(verdict, before));
    let listed = verdict.as_ref().map_or(&[][..], |list| &list[..list.len().min(rooms[0])]);
    let mut parts = slices.iter().enumerate();
    let holds = parts.all(|(part, lent)| lent.holds(listed.iter().map(|record| record[part])));
    (found != expected || !holds).then(|| {
        let answers = report::answers(expected, found);
        let lists = report::lists(listed, slices.each_mut().map(Lent::lend));
        format!("certis_check with room for {rooms:?}: {answers}\n  {lists}")
    })
}
