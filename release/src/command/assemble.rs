//! `release assemble`: a record from its text form.

use std::io::{stdout, IsTerminal};

use menqachu::text::assemble;

use super::args::Args;
use super::output::print;
use super::{files, Done, Stop, DONE};

pub fn run(args: &Args) -> Done {
    if stdout().is_terminal() {
        let advice =
            "a record is bytes and no text: send it to a file, as in `release assemble TEXT > RECORD`";
        return Err(Stop::failed(advice));
    }
    let file = &args.operands[0];
    let text = files::text(file)?;
    match assemble(&text) {
        Ok(parts) => print(&parts.to_bytes()).map(|()| DONE),
        Err(fault) => Err(files::wrong_text(file, &fault, &text)),
    }
}
