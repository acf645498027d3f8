//! `release diff`: what two records differ in.

mod columns;
mod declarations;
mod json;
mod layouts;
mod marks;

use menqachu::diff::{differences, Differences, Read};
use menqachu::record::commands::Said;
use menqachu::text::alike::Alike;
use menqachu::text::texts;
use menqachu::Side;

use super::args::Args;
use super::files::Given;
use super::output::{print, print_line};
use super::paint::Paint;
use super::{files, problem, Done, Stop, DONE};

pub fn run(args: &Args) -> Done {
    let current = files::record(&args.operands[0])?;
    let released = files::record(&args.operands[1])?;
    let is = read(&current, Side::Current, args.json.then_some("types"))?;
    let was = read(&released, Side::Released, args.json.then_some("types"))?;
    let found = differences(&is, &was);
    if args.json {
        print_line(&json::whole(&found).to_string())?;
    } else {
        let alike = alike(&found, [&is.commands, &was.commands]);
        print(page(&found, &alike, args.all, Paint::of_stdout()).as_bytes())?;
    }
    Ok(DONE)
}

/// A record with its layouts; `json` names the key that the answer would have had.
pub fn read(given: &Given, side: Side, json: Option<&'static str>) -> Result<Read, Stop> {
    Read::of(given.record(), side).map_err(|problem| problem::stop(problem, given, Some(side), json))
}

/// The texts and descriptions of both records, so that those that look the same get their code points.
fn alike(found: &Differences, commands: [&[Said]; 2]) -> Alike {
    let fields = found.types.iter().flat_map(|one| one.released.iter().chain(one.current));
    let names = found.types.iter().map(|one| one.name);
    let described = names.chain(fields.map(|field| &field.description[..]));
    Alike::among(commands.into_iter().flat_map(texts).chain(described))
}

/// What differs, or all.
fn page(found: &Differences, alike: &Alike, all: bool, paint: Paint) -> String {
    let declared = declarations::lines(found, alike, all);
    let laid = layouts::lines(found, alike, all);
    match (declared.is_empty(), laid.is_empty()) {
        (true, true) => "nothing differs that the check looks at\n".to_string(),
        (false, false) => {
            let between = columns::Line::Whole(Vec::new());
            let lines: Vec<columns::Line> = declared.into_iter().chain([between]).chain(laid).collect();
            columns::laid_out(&lines, paint)
        }
        (_, true) => columns::laid_out(&declared, paint),
        (true, _) => columns::laid_out(&laid, paint),
    }
}
