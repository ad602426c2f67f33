//! The reference, which decides what is right.

use super::convert::{from_reference, label_to_reference, reading_from_reference, to_reference, told_by_reference};
use super::{written, Implementation, Outcome};
use crate::case::{Call, Case};
use plain::{Diagnosis, Reading};
use reference::cabinet::{fresh, Answer, Cabinet};
use reference::diagnosis::diagnose;
use reference::mistakes::Rules;
use reference::sets::DiskSet;
use reference::{label, slots, state};

/// The reference, by the paper's rules or by the paper's with a mistake.
pub struct Reference(pub Rules);

impl Implementation for Reference {
    fn name(&self) -> &'static str {
        "reference"
    }

    fn make(&self, case: Case) -> Outcome {
        let (rules, state, supply) = (self.0, to_reference(case.state), case.supply);
        let (mut buffer, area) = (case.buffer, case.area);
        let (disks, blocks, number) = (narrow(case.disks), narrow(case.blocks), narrow(case.number));
        let mut cabinet = Cabinet { rules, state, area };
        let (mut reading, mut told) = (Reading::default(), Diagnosis::default());
        let answer = match case.call {
            Call::Fresh => kept(&mut cabinet.state, fresh(rules, disks, blocks, &mut cabinet.area)),
            Call::Read => cabinet.read(number, &mut buffer, supply),
            Call::Write => cabinet.write(number, &buffer, supply),
            Call::Join => cabinet.join(number, supply),
            Call::Swap => cabinet.swap(number, supply),
            Call::Quiet => cabinet.quiet(supply),
            Call::Restart => cabinet.restart(supply),
            Call::Lose => cabinet.lose(number),
            Call::Return => cabinet.give_back(number, &buffer),
            Call::Cut => cabinet.cut(),
            Call::Diagnose => {
                let (stage, disk) = (wide(case.stage), wide(case.number));
                told = told_by_reference(diagnose(rules, &cabinet.state, stage, disk));
                cabinet.take(&reference::call::Call::Diagnose { stage, disk }, &mut buffer)
            }
            Call::Save => slots::save(rules, &cabinet.state, &mut buffer),
            Call::Assemble => {
                let reach = DiskSet(case.reach);
                kept(
                    &mut cabinet.state,
                    slots::assemble(rules, disks, blocks, reach, &buffer),
                )
            }
            Call::ReadLabel => yielded(&mut reading, label::read(&buffer).map(reading_from_reference)),
            Call::WriteLabel => {
                let length = label::write(number, disks, &label_to_reference(case.label), &mut buffer);
                yielded(&mut reading, length.map(written))
            }
        };
        Outcome {
            result: answer.result,
            stores: answer.stores,
            state: from_reference(cabinet.state),
            area: cabinet.area,
            buffer,
            reading,
            told,
        }
    }
}

/// The answer of a call that is given no state and yields one, which is kept.
fn kept(place: &mut state::State, (answer, state): (Answer, state::State)) -> Answer {
    *place = state;
    answer
}

/// The answer of a label call. "Refused, it yields zeros for all of these."
fn yielded(place: &mut Reading, result: Result<Reading, u8>) -> Answer {
    match result {
        Ok(reading) => {
            *place = reading;
            Answer::DONE
        }
        Err(number) => Answer::refused(number),
    }
}

/// The reference's numbers are those of the cabinet program, of 16 bits. A larger one is given as 65,535: no call takes
/// a number above 64, and each refuses all that are larger alike.
fn narrow(number: usize) -> u16 {
    u16::try_from(number).unwrap_or(u16::MAX)
}

/// Those of a diagnosis have 32 bits. A larger one is given as the largest: no stage and no disk.
fn wide(number: usize) -> u32 {
    u32::try_from(number).unwrap_or(u32::MAX)
}
