//! Has the Rust make the chosen calls, and records what it answers.

use crate::addresses;
use crate::answer::{Answer, Build};
use crate::archive::Numbers;
use crate::call::list::CALLS;
use crate::call::original;
use crate::compare::Helper;
use crate::entries;
use crate::listed::Listed;
use crate::model::Store;
use crate::rounding;
use crate::vector::chosen::{Chosen, FRAMES, TABLES};
use crate::vector::digest::digest;
use crate::vector::lent;

/// A call with what the Rust answers, the refusal where it is listed to answer otherwise, and the digest of the store
/// afterwards: of what the Rust leaves, or where it is listed to answer otherwise of what was before.
pub struct Row {
    pub made: Chosen,
    pub rust: Answer,
    pub listed: Option<u64>,
    pub digest: u64,
}

/// The row of each chosen call, in turn; or what is neither equal nor listed.
pub fn rows(chosen: &[Chosen]) -> Result<Vec<Row>, String> {
    let mut recorder = Recorder { helpers: helpers(), store: Store::zeros(TABLES, FRAMES), lent: lent::bytes() };
    chosen.iter().map(|&made| recorder.row(made)).collect()
}

fn helpers() -> Vec<Helper> {
    addresses::helpers().into_iter().chain(rounding::helpers()).chain(entries::helpers()).collect()
}

struct Recorder {
    helpers: Vec<Helper>,
    /// The store that the calls so far have made.
    store: Store,
    /// The lent bytes as the last call has left them.
    lent: Vec<u8>,
}

impl Recorder {
    fn row(&mut self, made: Chosen) -> Result<Row, String> {
        self.lent = lent::bytes();
        let (rust, listed) = match made {
            Chosen::Fresh => {
                self.store = Store::zeros(TABLES, FRAMES);
                (Answer::Done(0), None)
            }
            Chosen::Helper(name, a, b) => {
                let helper = self.helpers.iter().find(|helper| helper.name == name).expect("a helper of this name");
                (helper.rusts(a, b), (helper.listed)(Build::Wrapping, a, b))
            }
            Chosen::Call(name, numbers) => self.call(name, numbers)?,
        };
        let listed = match listed {
            None => None,
            Some(Listed { ours: Answer::Refused(number, 0), rust: foreseen, .. }) if foreseen == rust => Some(number),
            Some(Listed { name, .. }) => return Err(format!("{made}: the Rust answers {rust}, not as listed: {name}")),
        };
        Ok(Row { made, rust, listed, digest: digest(&self.store, &self.lent) })
    }

    /// Has the Rust make a call. Where nothing is listed it must answer and write what the model does.
    fn call(&mut self, name: &str, numbers: Numbers) -> Result<(Answer, Option<Listed>), String> {
        let call = CALLS.iter().find(|call| call.name == name).expect("a call of this name");
        assert!((call.may_run)(&self.store, numbers), "the Rust may be run");
        original::hold_bytes(&self.store);
        original::hold_words(&self.store);
        let mut after = self.store.clone();
        let length = call.buffer.map_or(0, |_| lent::length(numbers, call.numbers));
        let mut lent = self.lent.clone();
        let model = (call.model)(&mut after, numbers, &mut self.lent[..length]);
        let rust = (call.rust)(numbers, &mut lent[..length]);
        let listed = (call.listed)(Build::Wrapping, &self.store, numbers, model);
        let answer = model.map_or_else(|number| Answer::Refused(number, 0), Answer::Done);
        if listed.is_none() && (rust != answer || !original::holds(&after) || lent != self.lent) {
            return Err(format!(
                "{name}: the Rust answers {rust}, the model {answer}, or other pages or lent bytes are left"
            ));
        }
        self.store = after;
        Ok((rust, listed))
    }
}
