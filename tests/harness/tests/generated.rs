//! Generated cases: rolls, images of our writer and of others, damage, questions, short outputs and
//! merges.
//!
//! TSM_CASES says how many, TSM_SEED from which seed; TSM_CASE runs only that one.

use tsm_harness::acts::Reference;
use tsm_harness::call::{Answer, Call, Entry};
use tsm_harness::data::number_from_env;
use tsm_harness::lent::Padded;
use tsm_harness::model::Model;
use tsm_harness::random::Random;
use tsm_harness::scene::{laid_length, Question, Scene};
use tsm_harness::tally::Tally;
use tsm_harness::trial::Trial;
use tsm_reference::file;

const CASES: u64 = 100_000;
const SEED: u64 = 1;

const SHORT_OUTPUT: Answer = Answer::Refused(19);
const IMAGE_LENGTH: Answer = Answer::Refused(1);
const IMAGE_TOO_LONG: Answer = Answer::Refused(22);

/// The bare image.
const BARE: [u8; 13] = [0x16, 0xd1, 0x16, 0xd1, 1, 0, 0, 0, 0, 0, 0, 0, 5];

#[test]
fn reference_keeps_the_laws() {
    let mut laws = Laws {
        trial: Trial::new(&Reference, &Padded),
    };
    let mut tally = Tally::default();
    let cases = for_each_case(CASES, |scene, random| {
        for call in scene.calls(random) {
            let answer = laws.trial.run(call);
            tally.count(call.act(), answer.number());
            if let Answer::Fault(fault) = answer {
                panic!("{fault}: {call}");
            }
        }
        laws.hold(scene);
    });
    report(&tally, cases);
}

#[cfg(feature = "library")]
mod library {
    use super::*;
    use tsm_harness::library::{Guarded, Library};

    #[test]
    fn library_answers_as_the_reference() {
        let mut reference = Trial::new(&Reference, &Padded);
        let mut guarded_after = Trial::new(&Library, &Guarded::After);
        let mut guarded_before = Trial::new(&Library, &Guarded::Before);
        let mut tally = Tally::default();
        let cases = for_each_case(CASES, |scene, random| {
            for call in scene.calls(random) {
                let expected = reference.run(call);
                let library = match random.coin() {
                    true => &mut guarded_after,
                    false => &mut guarded_before,
                };
                let answer = library.run(call);
                assert!(answer == expected, "{answer}\nis not {expected}\nto {call}");
                tally.count(call.act(), answer.number());
            }
        });
        report(&tally, cases);
    }

    #[test]
    fn library_keeps_the_laws() {
        let mut laws = Laws {
            trial: Trial::new(&Library, &Padded),
        };
        for_each_case(CASES / 10, |scene, _| laws.hold(scene));
    }
}

/// Prints what was counted, and sees that a full run has every answer that an act can give.
fn report(tally: &Tally, cases: u64) {
    println!("{cases} cases");
    tally.print();
    if cases >= CASES {
        tally.assert_complete();
    }
}

/// Runs the cases and answers how many there were.
fn for_each_case(default: u64, mut run: impl FnMut(&Scene, &mut Random)) -> u64 {
    let seed = number_from_env("TSM_SEED", SEED);
    let count = number_from_env("TSM_CASES", default);
    let only = number_from_env("TSM_CASE", u64::MAX);
    let cases = match only {
        u64::MAX => 0..count,
        case => case..case + 1,
    };
    for case in cases.clone() {
        let _running = Running { seed, case };
        let mut random = Random::of_case(seed, case);
        run(&Scene::new(&mut random), &mut random);
    }
    cases.end - cases.start
}

/// Names the case if it panics.
struct Running {
    seed: u64,
    case: u64,
}

impl Drop for Running {
    fn drop(&mut self) {
        if std::thread::panicking() {
            eprintln!("with TSM_SEED={} TSM_CASE={}", self.seed, self.case);
        }
    }
}

/// What holds between the acts, and between an act and the points of a file.
struct Laws<'a> {
    trial: Trial<'a>,
}

impl Laws<'_> {
    fn hold(&mut self, scene: &Scene) {
        match scene {
            Scene::Roll { roll, model } => self.hold_for_roll(roll, model.as_ref()),
            Scene::Image {
                image,
                model,
                questions,
            } => match model {
                _ if image.len() > file::MAX_LENGTH => {
                    assert_eq!(self.check(image), IMAGE_LENGTH);
                }
                Some(model) => {
                    self.hold_for_good_image(image, model);
                    self.answers_are_of(image, model, questions);
                }
                None => self.hold_for_any_image(image, questions),
            },
            Scene::Merge { images } => self.hold_for_merges(images),
        }
    }

    /// An accepted roll is what its image unrolls to.
    fn hold_for_roll(&mut self, roll: &[u8], model: Option<&Model>) {
        match (self.write(roll), model) {
            (Answer::Bytes(image), _) => {
                assert_eq!(self.unroll(&image), Answer::Bytes(roll.to_vec()));
                if let Some(model) = model {
                    assert_eq!(self.check(&image), totals(model));
                }
            }
            (Answer::Refused(20), None) => {}
            (answer, _) => assert!(answer == IMAGE_TOO_LONG && is_crowd(roll), "{answer}"),
        }
    }

    /// Unrolled, written anew and merged with nothing or itself, an image keeps its points.
    fn hold_for_good_image(&mut self, image: &[u8], model: &Model) {
        let roll = model.roll();
        assert_eq!(self.check(image), totals(model));
        assert_eq!(self.unroll(image), Answer::Bytes(roll.clone()));
        let written = self.write(&roll);
        let Answer::Bytes(written_image) = &written else {
            panic!("{written}");
        };
        assert_eq!(self.check(written_image), totals(model));
        assert_eq!(self.unroll(written_image), Answer::Bytes(roll));
        assert_eq!(self.merge(image, &BARE), written);
        assert_eq!(self.merge(&BARE, image), written);
        assert_eq!(self.merge(image, image), written);
        assert_eq!(self.merge(written_image, image), written);
    }

    /// The acts agree on whether an image is accepted.
    fn hold_for_any_image(&mut self, image: &[u8], questions: &[Question]) {
        let checked = self.check(image);
        let Answer::Refused(number) = checked else {
            return self.hold_for_accepted_image(image, checked);
        };
        assert_eq!(self.unroll(image), checked);
        assert_eq!(self.merge(image, &BARE), checked);
        assert_eq!(self.merge(&BARE, image), checked);
        assert_eq!(self.merge(image, &[]), checked);
        for question in questions {
            let found = self.find(image, question);
            match number {
                1..=11 => assert_eq!(found, checked),
                _ => assert!(matches!(found, Answer::Entry(_) | Answer::Refused(17 | 18))),
            }
        }
    }

    fn hold_for_accepted_image(&mut self, image: &[u8], checked: Answer) {
        let unrolled = self.unroll(image);
        let Answer::Bytes(roll) = &unrolled else {
            panic!("{unrolled}");
        };
        match self.write(roll) {
            Answer::Bytes(written) => {
                assert_eq!(self.check(&written), checked);
                assert_eq!(self.unroll(&written), unrolled);
            }
            answer => assert!(answer == IMAGE_TOO_LONG && is_crowd(roll), "{answer}"),
        }
    }

    /// Find and both reads answer from the points of the file.
    fn answers_are_of(&mut self, image: &[u8], model: &Model, questions: &[Question]) {
        for question in questions {
            let time = question.time;
            let found = self.find(image, question);
            let point = self.trial.run(Call::ReadPoint {
                query: question.of(image),
            });
            let Some(series) = model.series.get(&question.key) else {
                assert_eq!(found, Answer::Refused(17));
                assert_eq!(point, found);
                continue;
            };
            let value = series.points.get(&time).copied();
            let Answer::Entry(entry) = found else {
                assert_eq!((&found, value), (&Answer::Refused(18), None));
                assert_eq!(point, found);
                continue;
            };
            assert!(entry.min <= time && time <= entry.max);
            assert_eq!(entry.kind, series.kind);
            let expected = match value {
                Some(value) => Answer::Point { entry, value },
                None => Answer::Refused(23),
            };
            assert_eq!(point, expected);
            let points = series.points.range(entry.min..=entry.max);
            let (times, values): (Vec<i64>, Vec<i64>) = points.unzip();
            self.block_is(image, question, entry, times, values);
        }
    }

    /// Read block answers these points, and needs room for each.
    fn block_is(
        &mut self,
        image: &[u8],
        question: &Question,
        entry: Entry,
        times: Vec<i64>,
        values: Vec<i64>,
    ) {
        assert_eq!(
            (times.first(), times.last()),
            (Some(&entry.min), Some(&entry.max))
        );
        let count = times.len();
        let query = question.of(image);
        let mut read = |times, values| {
            self.trial.run(Call::ReadBlock {
                query,
                times,
                values,
            })
        };
        assert_eq!(read(count - 1, count), SHORT_OUTPUT);
        assert_eq!(read(count, count - 1), SHORT_OUTPUT);
        let expected = Answer::Block {
            entry,
            times,
            values,
        };
        assert_eq!(read(count, count + 2), expected);
    }

    /// A merge has the points of both files, the newer's where both have one, however three files
    /// are grouped.
    fn hold_for_merges(&mut self, images: &[(Vec<u8>, Option<Model>); 3]) {
        let [(a, model_a), (b, model_b), (c, model_c)] = images;
        let ab = self.merge_is(a, b, model_a.as_ref(), model_b.as_ref());
        let bc = self.merge_is(b, c, model_b.as_ref(), model_c.as_ref());
        let (Answer::Bytes(ab), Answer::Bytes(bc)) = (ab, bc) else {
            return;
        };
        let (left, right) = (self.merge(&ab, c), self.merge(a, &bc));
        if matches!((&left, &right), (Answer::Bytes(_), Answer::Bytes(_))) {
            assert_eq!(left, right);
        }
    }

    fn merge_is(
        &mut self,
        older: &[u8],
        newer: &[u8],
        older_model: Option<&Model>,
        newer_model: Option<&Model>,
    ) -> Answer {
        let merged = self.merge(older, newer);
        let checked = [self.check(older), self.check(newer)];
        let refused = checked
            .into_iter()
            .find(|checked| matches!(checked, Answer::Refused(_)));
        if let Some(refused) = refused {
            assert_eq!(merged, refused);
        } else if let (Some(older_model), Some(newer_model)) = (older_model, newer_model) {
            let expected = match older_model.merged(newer_model) {
                Some(model) => self.write(&model.roll()),
                None => Answer::Refused(21),
            };
            assert_eq!(merged, expected);
        }
        if let Answer::Bytes(bytes) = &merged {
            let capacity = bytes.len() - 1;
            let short = self.trial.run(Call::Merge {
                older,
                newer,
                capacity,
            });
            assert_eq!(short, SHORT_OUTPUT);
        }
        merged
    }

    fn check(&mut self, image: &[u8]) -> Answer {
        self.trial.run(Call::Check { image })
    }

    fn find(&mut self, image: &[u8], question: &Question) -> Answer {
        let query = question.of(image);
        self.trial.run(Call::Find { query })
    }

    fn write(&mut self, roll: &[u8]) -> Answer {
        let capacity = SPARE + laid_length(|out| tsm_reference::write(roll, out));
        self.trial.run(Call::Write { roll, capacity })
    }

    fn unroll(&mut self, image: &[u8]) -> Answer {
        let capacity = SPARE + laid_length(|out| tsm_reference::unroll(image, out));
        self.trial.run(Call::Unroll { image, capacity })
    }

    fn merge(&mut self, older: &[u8], newer: &[u8]) -> Answer {
        let capacity = SPARE + laid_length(|out| tsm_reference::merge(older, newer, out));
        self.trial.run(Call::Merge {
            older,
            newer,
            capacity,
        })
    }
}

/// Cells lent beyond what the result needs.
const SPARE: usize = 3;

fn totals(model: &Model) -> Answer {
    Answer::Totals {
        keys: model.series.len() as u64,
        points: model.points(),
    }
}

/// Whether the roll has about as many keys as an image can hold.
fn is_crowd(roll: &[u8]) -> bool {
    roll.len() > 100_000
}
