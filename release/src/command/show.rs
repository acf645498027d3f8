//! `release show`: the text form of a record.

use menqachu::text::show;

use super::args::Args;
use super::output::print;
use super::{files, problem, Done, DONE};

pub fn run(args: &Args) -> Done {
    let given = files::record(&args.operands[0])?;
    // A text form needs only what a released record needs.
    let text = show(given.record());
    let text = text.map_err(|problem| problem::stop(problem, &given, None, None))?;
    print(text.as_bytes()).map(|()| DONE)
}
