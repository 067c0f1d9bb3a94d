//! Makes one call on all its sides.

use crate::answer::Build;
use crate::archive::Numbers;
use crate::call::tally::Tally;
use crate::call::tried::Tried;
use crate::model::judge::judged;

/// Compares ours with the model and with the Rust, tells each difference, and puts the store back.
pub fn judge(tally: &mut Tally, tried: &mut Tried, numbers: Numbers, build: Option<Build>) -> Vec<String> {
    let call = tally.call;
    // SAFETY: the slices are those of a store and a buffer that nothing else has; they may be written and do not overlap.
    let ours = unsafe { (call.ours)(tried.lent(), numbers) };
    let model = judged(tried.well_formed, || (call.model)(&mut tried.model, numbers, &mut tried.buffer.model));
    let right = tried.is_right(call, numbers, model.is_ok());
    let mut told = Vec::new();
    told.extend(tally.against_the_model(numbers, &ours, model, right));
    if tried.well_formed && (call.may_run)(&tried.before, numbers) {
        tally.runs += 1;
        if let Some(build) = build {
            let rust = (call.rust)(numbers, &mut tried.buffer.rust);
            tried.touch_rusts(call.writes);
            let listed = (call.listed)(build, &tried.before, numbers, model);
            let same = listed.is_some() || tried.is_rusts(call.writes);
            told.extend(tally.against_the_rust(numbers, (ours.into(), rust), listed, same));
            tried.hold_again(call.writes);
        }
    }
    if !right || model.is_ok() {
        tried.put_back(call.writes);
    }
    told
}
