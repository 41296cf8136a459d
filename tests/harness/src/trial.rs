//! Runs a call over lent memory and judges every lent cell afterwards: inputs are as they were, no
//! cell beside a slice is touched, a refusal leaves all, and a good answer all past the result. A
//! refusal gives nothing: every other field of it is 0.

use crate::acts::{Acts, Query, Reply};
use crate::call::{Answer, Call};
use crate::data::number_from_env;
use crate::lent::{fill, holds_pattern, Cell, Lent, Memory};

/// What is wrong with a call's reply, or with lent memory after it.
type Fault = &'static str;

const INPUT_CHANGED: Fault = "an input was changed";
const STEPPED_OUTSIDE: Fault = "memory beside what was lent was changed";
const REFUSAL_WROTE: Fault = "a refusal wrote to an output";
const REFUSAL_GAVE: Fault = "a refusal gave a number that is not 0";
const WROTE_PAST_RESULT: Fault = "an output was changed past the result";
const RESULT_TOO_LONG: Fault = "the result is said to be longer than the output";

/// One implementation, with the memory that its calls are lent.
pub struct Trial<'a> {
    acts: &'a dyn Acts,
    /// Whether each call is printed before it is run, to find one that does not come back.
    trace: bool,
    inputs: Inputs,
    out: Box<dyn Lent<u8>>,
    times: Box<dyn Lent<i64>>,
    values: Box<dyn Lent<i64>>,
}

impl<'a> Trial<'a> {
    pub fn new(acts: &'a dyn Acts, memory: &dyn Memory) -> Trial<'a> {
        Trial {
            acts,
            trace: number_from_env("TSM_TRACE", 0) != 0,
            inputs: Inputs {
                first: memory.bytes(),
                second: memory.bytes(),
            },
            out: memory.bytes(),
            times: memory.numbers(),
            values: memory.numbers(),
        }
    }

    /// Runs the call.
    pub fn run(&mut self, call: Call) -> Answer {
        if self.trace {
            eprintln!("{call}");
        }
        let acts = self.acts;
        let answer = match call {
            Call::Check { image } => self.check(image),
            Call::Find { query } => self.find(query),
            Call::ReadBlock {
                query,
                times,
                values,
            } => self.read_block(query, times, values),
            Call::ReadPoint { query } => self.read_point(query),
            Call::Write { roll, capacity } => {
                self.lay(roll, &[], capacity, |roll, _, out| acts.write(roll, out))
            }
            Call::Unroll { image, capacity } => self.lay(image, &[], capacity, |image, _, out| {
                acts.unroll(image, out)
            }),
            Call::Merge {
                older,
                newer,
                capacity,
            } => self.lay(older, newer, capacity, |older, newer, out| {
                acts.merge(older, newer, out)
            }),
        };
        answer.unwrap_or_else(Answer::Fault)
    }

    fn check(&mut self, image: &[u8]) -> Result<Answer, Fault> {
        let acts = self.acts;
        let reply = self.inputs.lend(image, &[], |image, _| acts.check(image))?;
        answer(reply, |totals| Answer::Totals {
            keys: totals.keys,
            points: totals.points,
        })
    }

    fn find(&mut self, query: Query) -> Result<Answer, Fault> {
        let acts = self.acts;
        let reply = self.inputs.ask(query, |query| acts.find(query))?;
        answer(reply, Answer::Entry)
    }

    fn read_point(&mut self, query: Query) -> Result<Answer, Fault> {
        let acts = self.acts;
        let reply = self.inputs.ask(query, |query| acts.read_point(query))?;
        answer(reply, |point| Answer::Point {
            entry: point.entry,
            value: point.value,
        })
    }

    fn read_block(&mut self, query: Query, times: usize, values: usize) -> Result<Answer, Fault> {
        let acts = self.acts;
        let times = lend_pattern(&mut *self.times, times);
        let values = lend_pattern(&mut *self.values, values);
        let reply = self
            .inputs
            .ask(query, |query| acts.read_block(query, times, values))?;
        let times = judge_slice(reply.number, times, reply.given.count)?;
        let values = judge_slice(reply.number, values, reply.given.count)?;
        ensure(self.times.canaries_live(), STEPPED_OUTSIDE)?;
        ensure(self.values.canaries_live(), STEPPED_OUTSIDE)?;
        answer(reply, |block| Answer::Block {
            entry: block.entry,
            times,
            values,
        })
    }

    /// Runs an act that lays bytes.
    fn lay(
        &mut self,
        first: &[u8],
        second: &[u8],
        capacity: usize,
        act: impl FnOnce(&[u8], &[u8], &mut [u8]) -> Reply<usize>,
    ) -> Result<Answer, Fault> {
        let out = lend_pattern(&mut *self.out, capacity);
        let reply = self
            .inputs
            .lend(first, second, |first, second| act(first, second, out))?;
        let bytes = judge_slice(reply.number, out, reply.given)?;
        ensure(self.out.canaries_live(), STEPPED_OUTSIDE)?;
        answer(reply, |_| Answer::Bytes(bytes))
    }
}

/// The memory of what an act reads: an image or roll, then a key or a newer image.
struct Inputs {
    first: Box<dyn Lent<u8>>,
    second: Box<dyn Lent<u8>>,
}

impl Inputs {
    /// Lends copies of both inputs to `act`, which must leave them as they are.
    fn lend<T>(
        &mut self,
        first: &[u8],
        second: &[u8],
        act: impl FnOnce(&[u8], &[u8]) -> Reply<T>,
    ) -> Result<Reply<T>, Fault> {
        let lent_first = lend_copy(&mut *self.first, first);
        let lent_second = lend_copy(&mut *self.second, second);
        let reply = act(lent_first, lent_second);
        ensure(lent_first == first, INPUT_CHANGED)?;
        ensure(lent_second == second, INPUT_CHANGED)?;
        ensure(self.first.canaries_live(), STEPPED_OUTSIDE)?;
        ensure(self.second.canaries_live(), STEPPED_OUTSIDE)?;
        Ok(reply)
    }

    /// Runs an act that is asked for a key and time.
    fn ask<T>(
        &mut self,
        query: Query,
        act: impl FnOnce(Query) -> Reply<T>,
    ) -> Result<Reply<T>, Fault> {
        let Query { image, key, time } = query;
        self.lend(image, key, |image, key| act(Query { image, key, time }))
    }
}

fn lend_copy<'a>(memory: &'a mut dyn Lent<u8>, bytes: &[u8]) -> &'a [u8] {
    let lent = memory.lend(bytes.len());
    lent.copy_from_slice(bytes);
    lent
}

fn lend_pattern<T: Cell>(memory: &mut dyn Lent<T>, length: usize) -> &mut [T] {
    let lent = memory.lend(length);
    fill(lent);
    lent
}

/// The result in an output: its first `count` cells, or none for a refusal.
fn judge_slice<T: Cell>(number: u8, cells: &[T], count: usize) -> Result<Vec<T>, Fault> {
    if number != 0 {
        ensure(holds_pattern(cells, 0), REFUSAL_WROTE)?;
        return Ok(Vec::new());
    }
    let result = cells.get(..count).ok_or(RESULT_TOO_LONG)?;
    ensure(holds_pattern(&cells[count..], count), WROTE_PAST_RESULT)?;
    Ok(result.to_vec())
}

/// The answer of what is given, or of a refusal, which must give nothing.
fn answer<T: Default + PartialEq>(
    reply: Reply<T>,
    good: impl FnOnce(T) -> Answer,
) -> Result<Answer, Fault> {
    match reply.number {
        0 => Ok(good(reply.given)),
        number => {
            ensure(reply.given == T::default(), REFUSAL_GAVE)?;
            Ok(Answer::Refused(number))
        }
    }
}

fn ensure(holds: bool, fault: Fault) -> Result<(), Fault> {
    holds.then_some(()).ok_or(fault)
}

#[cfg(test)]
mod tests {
    use super::*;
    use crate::acts::{Block, Point, Totals};
    use crate::call::Entry;
    use crate::lent::Padded;

    /// What [`Faulty`] does wrong when it writes.
    enum Wrong {
        WriteThenRefuse,
        ClaimTooMuch,
        WritePastResult,
        CountThenRefuse,
    }

    /// Write by one that does not keep to the rules of lent memory and of refusals.
    struct Faulty(Wrong);

    impl Acts for Faulty {
        fn write(&self, _: &[u8], out: &mut [u8]) -> Reply<usize> {
            let (number, given) = match self.0 {
                Wrong::WriteThenRefuse => {
                    out[0] = !out[0];
                    (19, 0)
                }
                Wrong::ClaimTooMuch => (0, out.len() + 1),
                Wrong::WritePastResult => {
                    out[1] = !out[1];
                    (0, 1)
                }
                Wrong::CountThenRefuse => (19, 1),
            };
            Reply { number, given }
        }

        fn check(&self, _: &[u8]) -> Reply<Totals> {
            unimplemented!()
        }
        fn find(&self, _: Query) -> Reply<Entry> {
            unimplemented!()
        }
        fn read_block(&self, _: Query, _: &mut [i64], _: &mut [i64]) -> Reply<Block> {
            unimplemented!()
        }
        fn read_point(&self, _: Query) -> Reply<Point> {
            unimplemented!()
        }
        fn unroll(&self, _: &[u8], _: &mut [u8]) -> Reply<usize> {
            unimplemented!()
        }
        fn merge(&self, _: &[u8], _: &[u8], _: &mut [u8]) -> Reply<usize> {
            unimplemented!()
        }
    }

    #[test]
    fn faults_are_seen() {
        for (wrong, fault) in [
            (Wrong::WriteThenRefuse, REFUSAL_WROTE),
            (Wrong::ClaimTooMuch, RESULT_TOO_LONG),
            (Wrong::WritePastResult, WROTE_PAST_RESULT),
            (Wrong::CountThenRefuse, REFUSAL_GAVE),
        ] {
            let faulty = Faulty(wrong);
            let answer = Trial::new(&faulty, &Padded).run(Call::Write {
                roll: &[],
                capacity: 20,
            });
            assert_eq!(answer, Answer::Fault(fault));
        }
    }
}
