//! All differences of two records, line by line of their text form.

use std::collections::HashMap;

use menqachu::diff::lines::Line;
use menqachu::record::commands::Said;
use menqachu::record::numbers::named;
use menqachu::text::line;

use super::html;

pub fn section(lines: &[Line]) -> String {
    let changes: Vec<&Line> = lines.iter().filter(|line| line.differs()).collect();
    if changes.is_empty() {
        return html::section("All differences", "<p>There is none.</p>\n");
    }
    let mut rows = String::new();
    for (parent, changes) in grouped(&changes) {
        if !parent.is_empty() {
            let name = html::escaped(parent);
            rows.push_str(&format!("<tr class=\"parent\"><th colspan=\"2\"><bdi>{name}</bdi></th></tr>\n"));
        }
        for change in changes {
            let (was, is) = (cell(change.released, "was", &[]), cell(change.current, "is", &change.numbers));
            rows.push_str(&format!("<tr>{was}{is}</tr>\n"));
        }
    }
    let head = "<tr><th>last release</th><th>now</th></tr>";
    let table = format!("<table>\n<thead>{head}</thead>\n<tbody>\n{rows}</tbody>\n</table>\n");
    html::section("All differences", &table)
}

/// The changes by what they stand in: those that stand in nothing first.
fn grouped<'d>(changes: &[&'d Line<'d>]) -> Vec<(&'d str, Vec<&'d Line<'d>>)> {
    let mut groups: Vec<(&str, Vec<&Line>)> = vec![("", Vec::new())];
    let mut places: HashMap<&str, usize> = HashMap::from([("", 0)]);
    for change in changes {
        let place = *places.entry(&change.parent).or_insert(groups.len());
        if place == groups.len() {
            groups.push((&change.parent, Vec::new()));
        }
        groups[place].1.push(change);
    }
    groups
}

/// A line of either record, with the verdicts on it behind it.
fn cell(said: Option<&Said>, class: &str, numbers: &[u32]) -> String {
    let verdicts: String = numbers.iter().map(|number| format!(" <em>{}</em>", named(*number))).collect();
    match said {
        Some(said) => {
            let line = html::escaped(&line(said));
            format!("<td class=\"{class}\"><code><bdi>{line}</bdi></code>{verdicts}</td>")
        }
        None => format!("<td class=\"none\">-{verdicts}</td>"),
    }
}
