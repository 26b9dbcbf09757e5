//! The rules of closures: what a completion routine, a cancel routine and a dispatch may answer.

use crate::status::{is_completable, is_success};
use crate::types::{Answer, CancelAnswer, Plan, Shown};

/// What a completion routine promised of its answers.
#[derive(Clone, Copy, PartialEq, Eq, Debug)]
pub enum Rule {
    Watch,
    Change,
    Keeper,
    KeepOnError,
    Free,
}

/// All rules of completion routines by their names in texts.
pub const RULES: [(&str, Rule); 5] = [
    ("watch", Rule::Watch),
    ("change", Rule::Change),
    ("keeper", Rule::Keeper),
    ("keep_on_error", Rule::KeepOnError),
    ("free", Rule::Free),
];

/// All rules of cancel routines by their names in texts: one finishes, one leaves, one does either.
pub const CANCEL_RULES: [&str; 3] = ["must_finish", "must_leave", "either"];

/// A completion routine: its rule, and its number within the rule.
#[derive(Clone, Copy, PartialEq, Eq, Debug)]
pub struct RoutineId {
    pub rule: Rule,
    pub no: u32,
}

/// What IoSetCompletionRoutine puts into a location.
#[derive(Clone, Copy, PartialEq, Eq, Debug)]
pub struct Setting {
    pub routine: RoutineId,
    pub context: u64,
    pub on_success: bool,
    pub on_error: bool,
    pub on_cancel: bool,
}

/// How many completion routines of each rule, and how many cancel routines.
#[derive(Clone, Copy, PartialEq, Eq, Debug, Default)]
pub struct Known {
    pub completions: [u32; 5],
    pub cancels: u32,
}

impl Known {
    /// Whether the routine is one of these.
    pub fn has(&self, routine: RoutineId) -> bool {
        routine.no < self.completions[routine.rule as usize]
    }

    /// Whether a dispatch that may name these routines may plan so when it is shown this.
    pub fn allows(&self, shown: &Shown, plan: &Plan) -> bool {
        match plan {
            Plan::Finish { status, .. } => is_completable(*status),
            Plan::Hold { cancel: None } | Plan::HoldSlot => true,
            Plan::Hold { cancel: Some(id) } => !shown.cancel && *id < self.cancels,
            Plan::Skip => shown.has_lower,
            Plan::Forward { set } => {
                let watches = set.map_or(true, |set| set.routine.rule == Rule::Watch);
                shown.has_lower && watches && set.map_or(true, |set| self.has(set.routine))
            }
            Plan::ForwardPend { set } => {
                shown.has_lower && set.map_or(true, |set| self.has(set.routine))
            }
        }
    }
}

impl Rule {
    /// The one mark that an answer may have.
    pub fn right_mark(shown: &Shown, keep: bool) -> bool {
        !keep && shown.pending_returned && shown.device.is_some()
    }

    /// Whether a completion routine of this rule may give this answer to what it is shown.
    pub fn allows(self, shown: &Shown, answer: &Answer) -> bool {
        let replaces = answer.replacement.is_some();
        let obeys = match self {
            Rule::Watch => !answer.keep && !replaces,
            Rule::Change => !answer.keep,
            Rule::Keeper => answer.keep && !replaces,
            Rule::KeepOnError => answer.keep != is_success(shown.status) && !replaces,
            Rule::Free => true,
        };
        let completes = answer
            .replacement
            .map_or(true, |given| is_completable(given.status));
        obeys && completes && answer.mark == Rule::right_mark(shown, answer.keep)
    }
}

/// Whether a cancel routine of this rule may give this answer.
pub fn cancel_rule_allows(rule: u8, answer: &CancelAnswer) -> bool {
    match answer {
        CancelAnswer::Finish { .. } => rule != 1,
        CancelAnswer::Leave => rule != 0,
    }
}
