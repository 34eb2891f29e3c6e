//! What the random calls were answered, and that each answer was given often enough to mean something.
use crate::calls::{is_done, Call};

pub const GREATEST_REFUSAL: usize = 24;
/// How often each answer was given by both: 0 is done, n is refused n.
pub type Answers = [u32; 1 + GREATEST_REFUSAL];

/// The answers that the twin can give to calls that are no runs; to signed ones; to a tidying that moves nothing; to a load; to moves of an image; what can
/// stop a run; what can after its first element.
const TWINS: [usize; 16] = [0, 1, 2, 4, 5, 6, 7, 8, 9, 10, 14, 19, 20, 22, 23, 24];
const SIGNED: [usize; 13] = [0, 1, 2, 4, 5, 6, 7, 8, 9, 10, 19, 20, 23];
const UNMOVED: [usize; 3] = [0, 14, 20];
const LOADS: [usize; 3] = [0, 20, 22];
const UPS: [usize; 2] = [0, 22];
const DOWNS: [usize; 3] = [0, 22, 24];
const STOPS: [usize; 13] = [0, 1, 2, 4, 5, 6, 7, 8, 9, 10, 19, 20, 23];
const LATE_STOPS: [usize; 6] = [0, 7, 8, 9, 10, 23];
/// Each of them must have been given so often at least.
const OFTEN: u32 = 5;

#[derive(Default)]
pub struct Heard {
    /// Calls that are no runs.
    pub calls: Answers,
    /// Signed ones, which stand among those too; and how many of these read a number below zero.
    pub signed: Answers,
    pub below_zero: u32,
    /// Tidyings, which do so too: how many moved segments, and the others' answers.
    pub moved: u32,
    pub unmoved: Answers,
    /// Loads.
    pub loads: Answers,
    /// Moves of an image, up and down.
    pub ups: Answers,
    pub downs: Answers,
    /// Openings that may be far from their records: how many were in unsound tables, and how many in sound ones.
    pub apart: [u32; 2],
    /// What stopped the runs, 0 for nothing; and of those that came to an element.
    pub runs: Answers,
    pub late: Answers,
    pub elements: u64,
}

impl Heard {
    /// A call that both made, its answer, and the refusal in it or that stopped it, 0 where there was none.
    pub fn count(&mut self, call: &Call, answer: i64, refusal: usize) {
        match call {
            Call::WriteRun(..) | Call::FillRun(..) => {
                let many = call.came_to(answer);
                self.runs[refusal] += 1;
                self.late[refusal] += u32::from(many > 0);
                self.elements += many;
                return;
            }
            _ if call.is_signed() => {
                self.signed[refusal] += 1;
                self.below_zero += u32::from(answer < 0);
            }
            Call::Tidy => {
                let moved = is_done(answer) && answer > 0;
                self.moved += u32::from(moved);
                self.unmoved[refusal] += u32::from(!moved);
            }
            Call::Load => self.loads[refusal] += 1,
            Call::Up(..) => self.ups[refusal] += 1,
            Call::Down(..) => self.downs[refusal] += 1,
            _ => {}
        }
        self.calls[refusal] += 1;
    }

    pub fn check(&self) {
        often(&TWINS, &self.calls);
        often(&SIGNED, &self.signed);
        often(&UNMOVED, &self.unmoved);
        often(&LOADS, &self.loads);
        often(&UPS, &self.ups);
        often(&DOWNS, &self.downs);
        often(&STOPS, &self.runs);
        often(&LATE_STOPS, &self.late);
        assert!(self.below_zero >= OFTEN, "too seldom among the random calls: a number below zero is read");
        let seldom = self.apart.iter().any(|&times| times < OFTEN);
        assert!(!seldom, "too seldom apart from their records, in unsound and sound tables: {:?}", self.apart);
        assert!(self.moved >= OFTEN, "too seldom among the random calls: a tidying that moves segments");
    }

    pub fn print(&self) {
        let [calls, signed, runs] = [self.calls, self.signed, self.runs].map(|answers| answers.iter().sum::<u32>());
        println!("{calls} random calls: proved code and twin answer alike and leave the same cells.");
        println!("done and refused 1 to {GREATEST_REFUSAL}, how often: {:?}", self.calls);
        println!(
            "signed calls among them: {signed}, of which {} read a number below zero; done and refused: {:?}",
            self.below_zero, self.signed
        );
        println!(
            "tidyings among them: {} move segments; of the others done and refused: {:?}",
            self.moved, self.unmoved
        );
        println!("loads among them, done and refused: {:?}", self.loads);
        println!("images moved up among them, done and refused: {:?}", self.ups);
        println!("images moved down among them, done and refused: {:?}", self.downs);
        let [unsound, sound] = self.apart;
        println!("openings apart from their records: {sound} in sound tables, {unsound} in unsound ones.");
        println!("{runs} random runs, {} elements: alike too, and as their single calls.", self.elements);
        println!("done and stopped, how often: {:?}, after an element: {:?}", self.runs, self.late);
    }
}

fn often(answers: &[usize], heard: &Answers) {
    let seldom = answers.iter().find(|&&answer| heard[answer] < OFTEN);
    assert!(seldom.is_none(), "too seldom among the random calls: answer {seldom:?} of {heard:?}");
}
