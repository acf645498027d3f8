//! Notes after an accepted record: where it is outside the premises of what is proved of chains.

use menqachu::premises::chain::{outside, Link};
use menqachu::premises::{Asked, Outside, PREMISES};
use menqachu::record::{decode, Problem};

use super::files::Given;
use super::json::Json;
use super::{problem, Stop};

/// Where the records of a chain are outside the premises.
#[derive(Default)]
pub struct Notes {
    outside: Vec<Outside>,
    labels: Vec<String>,
}

impl Notes {
    /// The notes of a first record and the accepted ones, each with what a message calls it.
    pub fn of(chain: &[(&str, &Given)]) -> Result<Notes, Stop> {
        let mut links = Vec::new();
        for (label, given) in chain {
            let commands = decode::commands(given.record());
            let commands =
                commands.map_err(|place| problem::stop(Problem::Undecoded { place }, given, None, None))?;
            links.push(Link { label: label.to_string(), commands });
        }
        Ok(Notes { outside: outside(&links), labels: links.into_iter().map(|link| link.label).collect() })
    }

    /// A line for each premise that is not met, with the first place and how many more there are.
    pub fn lines(&self) -> String {
        let mut lines = String::new();
        for premise in PREMISES {
            let mut places = self.outside.iter().filter(|outside| outside.premise.key == premise.key);
            let Some(first) = places.next() else { continue };
            let more = match places.count() {
                0 => String::new(),
                count => format!("; and {count} more"),
            };
            let covered = match premise.asked {
                Asked::Generation => "what is proved of generation numbers does not cover it".to_string(),
                _ => format!("what is proved of chains does not cover {}", self.labels[first.record]),
            };
            lines.push_str(&format!("note: {covered}: {}{more}\n", first.what));
        }
        lines
    }

    /// All places, each with the key of its premise.
    pub fn places(&self) -> impl Iterator<Item = (&'static str, &str)> {
        self.outside.iter().map(|outside| (outside.premise.key, outside.what.as_str()))
    }

    /// All places, each with its premise.
    pub fn json(&self) -> Json {
        Json::List(
            self.outside
                .iter()
                .map(|outside| {
                    let mut value = place_json(outside);
                    value.insert(1, ("record", Json::text(&self.labels[outside.record])));
                    Json::Object(value)
                })
                .collect(),
        )
    }
}

/// A place where a premise is not met: the premise's key and words, and what is found.
pub fn place_json(outside: &Outside) -> Vec<(&'static str, Json)> {
    vec![
        ("premise", Json::text(outside.premise.key)),
        ("words", Json::text(outside.premise.words)),
        ("what", Json::text(&outside.what)),
    ]
}
