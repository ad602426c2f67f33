//! A case as one line of text, from which it can be run again: the call's name, then a word `KEY=VALUE` for each
//! argument that is not zero or empty. Numbers are decimal; states, labels and buffers are as in `word` and
//! `state_bytes`.

use crate::case::{Call, Case};
use crate::{state_bytes, word};

impl Case {
    /// The line of this case.
    pub fn line(&self) -> String {
        let mut line = self.call.name().to_string();
        let blank = Case::new(self.call).fields();
        let given = self
            .fields()
            .into_iter()
            .zip(blank)
            .filter(|(field, zero)| field != zero);
        for ((key, value), _) in given {
            line += &format!(" {key}={value}");
        }
        line
    }

    /// The case of a line; `None` if it is none.
    pub fn from_line(line: &str) -> Option<Case> {
        let mut words = line.split_whitespace();
        let name = words.next()?;
        let &(call, _) = Call::ALL.iter().find(|(_, each)| *each == name)?;
        let mut case = Case::new(call);
        for word in words {
            let (key, value) = word.split_once('=')?;
            case.set(key, value)?;
        }
        Some(case)
    }

    /// Each argument by its key, as text.
    fn fields(&self) -> [(&'static str, String); 10] {
        [
            ("state", word::word_of(&state_bytes::bytes_of(&self.state))),
            ("disks", self.disks.to_string()),
            ("blocks", self.blocks.to_string()),
            ("reach", self.reach.to_string()),
            ("number", self.number.to_string()),
            ("stage", self.stage.to_string()),
            ("label", word::word_of(&state_bytes::label_bytes(&self.label))),
            ("supply", self.supply.to_string()),
            ("area", word::word_of(&self.area)),
            ("buffer", word::word_of(&self.buffer)),
        ]
    }

    /// Gives the argument of this key its value.
    fn set(&mut self, key: &str, value: &str) -> Option<()> {
        match key {
            "state" => self.state = state_bytes::state_of(word::bytes_of(value)?.as_slice().try_into().ok()?),
            "disks" => self.disks = value.parse().ok()?,
            "blocks" => self.blocks = value.parse().ok()?,
            "reach" => self.reach = value.parse().ok()?,
            "number" => self.number = value.parse().ok()?,
            "stage" => self.stage = value.parse().ok()?,
            "label" => self.label = state_bytes::label_of(&word::bytes_of(value)?)?,
            "supply" => self.supply = value.parse().ok()?,
            "area" => self.area = word::bytes_of(value)?,
            "buffer" => self.buffer = word::bytes_of(value)?,
            _ => return None,
        }
        Some(())
    }
}
