//! Puts a case to the model, the text and the library, and compares what comes back.

use crate::{
    answer::{IO, NOT_ERASED, NOT_FOUND, POWER_LOST},
    case::Case,
    model,
    op::{Layer, Op},
    oracle,
    outcome::{difference, Outcome},
    rattle,
};

pub const RULE: &str = "erase count 4294967295 in the table, where the paper parts from the text";
pub const RULE_ANSWER: &str = "erase count 4294967295 in the table: only the answer compared, with power";

/// The three outcomes of one case.
pub struct Judged {
    pub model: Outcome,
    /// none with the reason where the text cannot be asked
    pub text: Result<Outcome, &'static str>,
    pub library: Option<Outcome>,
    /// how far the text is compared: everything, the answer, or not, with the reason
    pub scope: Scope,
}

#[derive(Clone, Copy, PartialEq, Eq, Debug)]
pub enum Scope {
    Everything,
    Answer(&'static str),
    Nothing(&'static str),
}

pub fn judge(case: &Case) -> Judged {
    let ran = model::run(case);
    let text = oracle::run(case);
    let scope = match (&text, ran.rule) {
        (Err(reason), _) => Scope::Nothing(reason),
        (Ok(_), false) => Scope::Everything,
        (Ok(_), true) if case.fuse.is_none() => Scope::Answer(RULE_ANSWER),
        (Ok(_), true) => Scope::Nothing(RULE),
    };
    Judged { model: ran.outcome, text, library: rattle::run(case), scope }
}

/// Plants a fault in the library's outcome, to show that the harness finds, shrinks and reports one: a stored byte of
/// a write that is longer than five bytes, or of a block's or the collector's function, comes out wrong; of a batch, the
/// count where a record behind the second is refused; a lookup of more than 16 bytes does not find what it cannot read; a
/// sweep does not count the second twin, and with words lent it leaves a note of it. Under the strict mark only what meets a
/// programmed unit comes out wrong: what was stored before is taken back, and where there is no power that is told first.
pub fn plant(case: &Case, judged: &mut Judged) {
    let mut wrong = judged.model.clone();
    if case.geometry.marked() {
        if wrong.answer == NOT_ERASED {
            wrong.image = case.image.clone();
            wrong.answer = if case.fuse == Some(0) { POWER_LOST } else { NOT_ERASED };
        }
        judged.library = Some(wrong);
        return;
    }
    if case.op.signature().layer == Layer::Batch {
        if !wrong.done() && wrong.values[0] >= 2 {
            wrong.values[0] += 1;
        }
        judged.library = Some(wrong);
        return;
    }
    if case.op.signature().layer == Layer::Sweep && wrong.values[0] >= 2 {
        match wrong.array.last_mut() {
            Some(word) => *word = 1,
            None => wrong.values[0] -= 1,
        }
        judged.library = Some(wrong);
        return;
    }
    if case.op == Op::Lookup && wrong.answer == IO && case.bytes.len() > 16 {
        wrong.answer = NOT_FOUND;
    }
    let upper = matches!(case.op.signature().layer, Layer::Blocks | Layer::Collector);
    if case.op.stores() && wrong.done() && (upper || case.bytes.len() > 5) {
        if let Some(at) = (0..wrong.image.len()).find(|&i| wrong.image[i] != case.image[i]) {
            wrong.image[at] ^= 1;
        }
    }
    judged.library = Some(wrong);
}

impl Judged {
    /// What differs, in words; none where all agree.
    pub fn difference(&self, case: &Case) -> Option<String> {
        if let Ok(text) = &self.text {
            let differs = match self.scope {
                Scope::Everything => difference(case, &self.model, text, true),
                Scope::Answer(_) => (self.model.answer != text.answer).then_some("answer"),
                Scope::Nothing(_) => None,
            };
            if let Some(what) = differs {
                return Some(format!("the model and the text differ in the {what}"));
            }
        }
        let library = self.library.as_ref()?;
        if let (Ok(text), Scope::Everything) = (&self.text, self.scope) {
            if let Some(what) = difference(case, library, text, true) {
                return Some(format!("the library and the text differ in the {what}"));
            }
        }
        difference(case, &self.model, library, false)
            .map(|what| format!("the library and the model differ in the {what}"))
    }

    /// The three outcomes for people.
    pub fn show(&self, case: &Case) -> String {
        let text = match &self.text {
            Ok(outcome) => outcome.show(case),
            Err(reason) => format!("not asked: {reason}"),
        };
        let library = match &self.library {
            Some(outcome) => outcome.show(case),
            None => "not linked (feature of this layer is off)".to_string(),
        };
        format!("  model: {}\n  text: {text}\n  library: {library}", self.model.show(case))
    }
}
