//! Lists of calls through the port: minimise and eliminate calls in one, with every answer and both slices after each.

use crate::port::{self, Lent, Numbers};
use crate::problem::{Answer, Call, Plan, Problem};
use crate::random::Random;

/// A list as words, and the slices that it is lent, but for the plan.
#[derive(Clone)]
struct List {
    calls: Vec<u64>,
    tapes: Vec<u64>,
    work: Vec<u16>,
    cells: Vec<f64>,
    answers: Vec<u64>,
    history: Vec<u16>,
}

impl List {
    /// The list of these calls. Every cell that is written has random content before.
    fn of(calls: &[&Call], plan: &Plan, random: &mut Random) -> List {
        let (mut words, mut tapes, mut most) = (vec![], vec![], (0, 0));
        for call in calls {
            let cells = match call {
                Call::Minimise { limit, tape, clock, cells } => {
                    words.extend([0, *limit as u64, *clock, tape.len() as u64]);
                    tapes.extend(tape);
                    cells
                }
                Call::Eliminate { cells } => {
                    words.extend([1, 0, 0, 0]);
                    cells
                }
                _ => unreachable!("a list has calls with a plan only"),
            };
            words.extend([cells.u16s as u64, cells.f64s as u64]);
            most = (most.0.max(cells.u16s), most.1.max(cells.f64s));
        }
        let history = calls.len() * (plan.lengths.len() + plan.stops.len());
        List {
            calls: words,
            tapes,
            work: (0..most.0).map(|_| random.word() as u16).collect(),
            cells: (0..most.1).map(|_| f64::from_bits(random.word())).collect(),
            answers: (0..4 * calls.len()).map(|_| random.word()).collect(),
            history: (0..history).map(|_| random.word() as u16).collect(),
        }
    }

    fn run(&mut self, problem: &Problem, plan: &mut Plan, numbers: &Numbers) -> u8 {
        let List { calls, tapes, work, cells, answers, history } = self;
        let lent = Lent { lengths: &mut plan.lengths, stops: &mut plan.stops, work, cells, counts: answers };
        port::run_calls(lent, history, calls, tapes, problem, numbers)
    }

    /// Equal bits are equal slices.
    fn bits(&self) -> (&Vec<u16>, Vec<u64>, &Vec<u64>, &Vec<u16>) {
        (&self.work, self.cells.iter().map(|value| value.to_bits()).collect(), &self.answers, &self.history)
    }

    /// One fault that makes the list malformed.
    fn damage(&mut self, random: &mut Random) {
        let at = 6 * random.below(self.calls.len() / 6);
        match random.below(8) {
            0 => self.calls[at] = 2 + random.word() % 9,
            1 => self.calls[at + 3] += 1,
            2 => self.calls[at + 4] = self.work.len() as u64 + 1,
            3 => self.calls[at + 5] = self.cells.len() as u64 + 1,
            4 => self.calls.push(0),
            5 => self.tapes.push(0),
            6 => self.answers.push(0),
            _ => self.history.push(0),
        }
    }
}

/// The answers to the calls, each with the plan after it, from one call of the port. The plan is left as the last call
/// leaves it.
pub fn replies(
    problem: &Problem,
    plan: &mut Plan,
    calls: &[&Call],
    numbers: &Numbers,
    random: &mut Random,
) -> Vec<(Answer, Plan)> {
    let mut list = List::of(calls, plan, random);
    if !calls.is_empty() && random.chance(20) {
        let mut damaged = list.clone();
        damaged.damage(random);
        refused_with(102, problem, plan, numbers, &damaged);
        let over = Numbers { given: numbers.given | 8 << random.below(5), ..*numbers };
        refused_with(101, problem, plan, &over, if random.chance(50) { &damaged } else { &list });
    }
    let number = list.run(problem, plan, numbers);
    assert!(number == 0, "a list is refused with {number}");
    let both = plan.lengths.len() + plan.stops.len();
    let mut replies = vec![];
    for (index, call) in calls.iter().enumerate() {
        let after = &list.history[index * both..(index + 1) * both];
        let (lengths, stops) = after.split_at(plan.lengths.len());
        let plan = Plan { lengths: lengths.to_vec(), stops: stops.to_vec() };
        replies.push((answer(call, &list.answers[4 * index..4 * index + 4]), plan));
    }
    replies
}

fn answer(call: &Call, words: &[u64]) -> Answer {
    match (call, words) {
        (_, &[number, ref counts @ ..]) if number != 0 => {
            assert!(*counts == [0, 0, 0], "a refused call counts nothing");
            Answer::Refused(number as u8)
        }
        (Call::Minimise { .. }, &[_, routes, steps, draws]) => Answer::Minimised { routes, steps, draws },
        (_, words) => {
            assert!(words[2..] == [0, 0], "eliminate counts nothing");
            Answer::Eliminated { routes: words[1] }
        }
    }
}

fn refused_with(number: u8, problem: &Problem, plan: &Plan, numbers: &Numbers, list: &List) {
    let (mut left, mut after) = (plan.clone(), list.clone());
    let said = after.run(problem, &mut left, numbers);
    assert!(said == number && after.bits() == list.bits() && left == *plan, "{number} expected, {said} returned");
}
