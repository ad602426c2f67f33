//! The calls in plain Rust.

use super::{written, Implementation, Outcome};
use crate::case::{Call, Case};
use plain::{Answer, Diagnosis, Reading, State};

/// The package `plain`.
pub struct Plain;

impl Implementation for Plain {
    fn name(&self) -> &'static str {
        "plain"
    }

    fn make(&self, mut case: Case) -> Outcome {
        let (state, area, buffer) = (case.state, &mut case.area, &mut case.buffer);
        let (mut reading, mut told) = (Reading::default(), Diagnosis::default());
        let answer = match case.call {
            Call::Fresh => plain::fresh(case.disks, case.blocks, area),
            Call::Read => plain::read(state, area, case.number, buffer, case.supply),
            Call::Write => plain::write(state, area, case.number, buffer, case.supply),
            Call::Join => plain::join(state, area, case.number, case.supply),
            Call::Swap => plain::swap(state, area, case.number, case.supply),
            Call::Quiet => plain::quiet(state, case.supply),
            Call::Restart => plain::restart(state, area, case.supply),
            Call::Lose => plain::lose(state, case.number),
            Call::Return => plain::give_back(state, case.number, buffer),
            Call::Cut => plain::cut(state),
            Call::Diagnose => {
                told = plain::diagnose(&state, case.stage, case.number);
                unchanged(state, told.result)
            }
            Call::Save => plain::save(state, buffer),
            Call::Assemble => plain::assemble(case.disks, case.blocks, case.reach, buffer),
            Call::ReadLabel => yielded(&mut reading, plain::read_label(buffer)),
            Call::WriteLabel => {
                let length = plain::write_label(buffer, case.number, case.disks, &case.label);
                yielded(&mut reading, length.map(written))
            }
        };
        Outcome {
            result: answer.result,
            stores: answer.stores.into(),
            state: answer.state,
            area: case.area,
            buffer: case.buffer,
            reading,
            told,
        }
    }
}

/// The answer of a call that makes no stores and leaves the state.
fn unchanged(state: State, result: u8) -> Answer {
    Answer {
        result,
        stores: 0,
        state,
    }
}

/// The answer of a label call, which is given no state.
fn yielded(place: &mut Reading, result: Result<Reading, u8>) -> Answer {
    let (reading, result) = result.map_or_else(|number| (Reading::default(), number), |reading| (reading, 0));
    *place = reading;
    unchanged(State::default(), result)
}
