//! The book of 'The list and the book'.

use crate::cabinet::{Answer, Cabinet};
use crate::call::Call;
use crate::lists;
use crate::mistakes::{Mistake, Rules};
use crate::state::{State, BLOCK};
use crate::store::Store;

/// "The book has a block for each k below b, zeros at first. Beside it stands a cabinet of this paper, begun as fresh
/// gives it, that takes each call by the rules here." Both are fed only arguments, and "no answer, state or disk area
/// of the program".
#[derive(Clone, Debug, PartialEq, Eq)]
pub struct Book {
    /// The book's own cabinet.
    pub cabinet: Cabinet,
    /// The book's blocks, one after another.
    pub blocks: Vec<u8>,
}

/// What the book made of a call.
#[derive(Clone, Copy, Debug, PartialEq, Eq)]
pub struct Taken {
    /// The answer of the book's own cabinet.
    pub answer: Answer,
    /// Whether the call is a write that counts.
    pub counted: bool,
}

impl Book {
    /// The book of a fresh cabinet, or fresh's refusal.
    pub fn open(rules: Rules, n: u16, b: u16) -> Result<Book, u8> {
        let cabinet = Cabinet::fresh(rules, n, b)?;
        let blocks = vec![0; b as usize * BLOCK];
        Ok(Book { cabinet, blocks })
    }

    /// Block k of the book.
    pub fn block(&self, block: usize) -> &[u8] {
        &self.blocks[block * BLOCK..][..BLOCK]
    }

    /// Feeds a call to the book, with an output like the one in the list: a read refuses one of a wrong length, and so
    /// does not move. If it is a write that counts, "then block k of the book becomes its data. The other seven calls
    /// leave the book as it is", and so do a diagnosis and a swap, which carry out no write.
    pub fn take(&mut self, call: &Call, output: &mut [u8]) -> Taken {
        let before = self.cabinet.state;
        let answer = self.cabinet.take(call, output);
        let counted = match call {
            Call::Write { block, data, .. } => self.counts(&before, *block, data, answer),
            _ => false,
        };
        if let (Call::Write { block, data, .. }, true) = (call, counted) {
            self.blocks[*block as usize * BLOCK..][..BLOCK].copy_from_slice(data);
        }
        Taken { answer, counted }
    }

    /// "A write of block k counts when the stores so made include that of block k on the lowest member of its L."
    fn counts(&self, before: &State, block: u16, data: &[u8], answer: Answer) -> bool {
        if !answer.is_carried_out() {
            return false;
        }
        let rules = self.cabinet.rules;
        let list = lists::write(rules, before, block as u8, data);
        if rules.makes(Mistake::BookCountsEveryWrite) {
            return true;
        }
        if rules.makes(Mistake::BookCountsAtLastDisk) {
            return answer.stores == list.len();
        }
        let lowest = before.live().lowest();
        list.iter().take(answer.stores).any(|store| match store {
            Store::Block { disk, block: k, .. } => Some(*disk) == lowest && u16::from(*k) == block,
            _ => false,
        })
    }
}
