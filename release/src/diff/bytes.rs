//! Two layouts byte by byte: what stood in each byte and what stands there now.

use std::collections::BTreeSet;

use crate::record::layout::Field;

/// Bytes from one up to another, which is not among them, in which one field stood and one stands now.
#[derive(Clone, Copy, Debug, PartialEq, Eq)]
pub struct Run<'a> {
    pub from: u64,
    pub to: u64,
    pub released: Option<Part<'a>>,
    pub current: Option<Part<'a>>,
}

/// Bytes of a field, counted from its first.
#[derive(Clone, Copy, Debug, PartialEq, Eq)]
pub struct Part<'a> {
    pub field: &'a Field,
    pub from: u64,
    pub to: u64,
}

impl Part<'_> {
    pub fn is_whole(&self) -> bool {
        self.to - self.from == self.field.size
    }
}

impl Run<'_> {
    /// Whether what stands there is what stood there.
    pub fn is_kept(&self) -> bool {
        self.released == self.current
    }
}

/// Where a field of either record begins or ends.
pub fn edges(released: &[Field], current: &[Field]) -> Vec<u64> {
    let ends = released.iter().chain(current).flat_map(|field| [field.offset, field.offset + field.size]);
    ends.collect::<BTreeSet<u64>>().into_iter().collect()
}

/// The bytes of both layouts, cut where a field of either begins or ends. Fields stand in the order of their offsets and none lies
/// over another.
pub fn runs<'a>(released: &'a [Field], current: &'a [Field]) -> Vec<Run<'a>> {
    let (mut was, mut is) = (Parts { fields: released }, Parts { fields: current });
    let edges = edges(released, current);
    let run = |ends: &[u64]| {
        let (from, to) = (ends[0], ends[1]);
        Run { from, to, released: was.part(from, to), current: is.part(from, to) }
    };
    edges.windows(2).map(run).collect()
}

/// The fields that are still to come.
struct Parts<'a> {
    fields: &'a [Field],
}

impl<'a> Parts<'a> {
    /// What lies at these bytes, which no edge of a field cuts; they come in their order.
    fn part(&mut self, from: u64, to: u64) -> Option<Part<'a>> {
        let passed = self.fields.iter().take_while(|field| field.offset + field.size <= from).count();
        self.fields = &self.fields[passed..];
        let field = self.fields.first().filter(|field| field.offset <= from)?;
        Some(Part { field, from: from - field.offset, to: to - field.offset })
    }
}

/// Bytes as a person counts them: the first, and the last where there are more.
pub fn counted(from: u64, to: u64) -> String {
    if to - from == 1 {
        from.to_string()
    } else {
        format!("{from}-{}", to - 1)
    }
}

#[cfg(test)]
mod tests {
    use super::*;

    fn fields(sizes: &[(&str, u64)]) -> Vec<Field> {
        let mut offset = 0;
        let field = |(name, size): &(&str, u64)| {
            let field = Field {
                name: name.as_bytes().to_vec(),
                offset,
                size: *size,
                description: b"scalar".to_vec(),
                padding: false,
            };
            offset += size;
            field
        };
        sizes.iter().map(field).collect()
    }

    /// The runs as lines: the bytes, and each part with its own bytes.
    fn told(was: &[(&str, u64)], is: &[(&str, u64)]) -> Vec<String> {
        let (was, is) = (fields(was), fields(is));
        let part = |part: Option<Part>| {
            part.map_or("-".to_string(), |part| {
                format!("{}[{}]", String::from_utf8_lossy(&part.field.name), counted(part.from, part.to))
            })
        };
        let runs = runs(&was, &is);
        runs.iter()
            .map(|run| format!("{} {} {}", counted(run.from, run.to), part(run.released), part(run.current)))
            .collect()
    }

    #[test]
    fn cut_at_every_edge() {
        let was = [("n", 2), ("empty", 0), ("skip", 1), ("gap", 4)];
        assert_eq!(
            told(&was, &[("new", 1), ("n", 2), ("skip", 1)]),
            ["0 n[0] new[0]", "1 n[1] n[0]", "2 skip[0] n[1]", "3 gap[0] skip[0]", "4-6 gap[1-3] -"]
        );
        assert_eq!(told(&was, &was), ["0-1 n[0-1] n[0-1]", "2 skip[0] skip[0]", "3-6 gap[0-3] gap[0-3]"]);
        assert_eq!(told(&[], &was[..1]), ["0-1 - n[0-1]"]);
        assert!(told(&[], &[("empty", 0)]).is_empty() && told(&[], &[]).is_empty());
    }
}
