//! What ends a command that needs a record's layouts, owner or text, and cannot have them.

use menqachu::record::Problem;
use menqachu::Side;

use super::answer::Told;
use super::files::Given;
use super::json::Json;
use super::output::print_line;
use super::Stop;

/// Tells a problem: a refusal is written as JSON too, where that is asked for, under the key `refusal`.
pub fn stop(problem: Problem, given: &Given, side: Option<Side>, json: Option<&'static str>) -> Stop {
    let file = given.shown();
    match problem {
        Problem::Refused(answer) => {
            let told = Told::of_given(answer.number, side, answer.place, given);
            refused(&told, given, json)
        }
        Problem::Undecoded { place } => Stop::failed(format!(
            "{file}: the record was read, and yet its command at place {place} is not understood; this is a fault \
             of this program, and nothing is shown rather than guessed"
        )),
        Problem::Unfit { line } => Stop::failed(format!(
            "{file}: line {line} of its list does not fit the names in the record; this is a fault of this \
             program, and nothing is shown rather than guessed"
        )),
    }
}

/// Ends a command for a damaged record; `json` names the key that its answer would have had.
pub fn refused(told: &Told, given: &Given, json: Option<&'static str>) -> Stop {
    match print_refusal(told, json) {
        Ok(()) => Stop::damaged(format!("{}: {}", given.shown(), told.line())),
        Err(stop) => stop,
    }
}

/// Writes a refusal as JSON, where a key is given that its answer would have had.
pub fn print_refusal(told: &Told, json: Option<&'static str>) -> Result<(), Stop> {
    let Some(key) = json else { return Ok(()) };
    let value = Json::Object(vec![("refusal", told.json()), (key, Json::Null)]);
    print_line(&value.to_string())
}

#[cfg(test)]
mod tests {
    use std::ffi::OsStr;

    use menqachu::record::parts::Parts;

    use super::*;
    use crate::command::FAILED;

    /// A list that does not fit is said to, with the line, and nothing is printed.
    #[test]
    fn what_does_not_fit() {
        let given = Given::within(OsStr::new("plate.rec"), Parts::default());
        let stop = |problem| stop(problem, &given, Some(Side::Current), None);
        let unfit = stop(Problem::Unfit { line: 3 });
        assert_eq!(unfit.status, FAILED);
        assert!(unfit.message.starts_with("plate.rec: line 3 of its list does not fit the names"));
        let undecoded = stop(Problem::Undecoded { place: 5 });
        assert_eq!(undecoded.status, FAILED);
        assert!(undecoded.message.contains("its command at place 5 is not understood"));
    }
}
