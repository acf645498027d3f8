//! The pointers of a record: what the proved call says of them, with the names of the field that it stops at.

use super::commands::{Said, FAMILY, FIELD, STRUCT, VARIANT};
use super::decode;
use super::Problem;
use crate::{pointers, Record};

/// A pointer that does not name what it must.
#[derive(Clone, Debug, PartialEq, Eq)]
pub struct Broken {
    pub number: u32,
    pub place: usize,
    /// The whole name of the type that the field stands in.
    pub type_name: Vec<u8>,
    pub field: Vec<u8>,
    pub kind: Vec<u8>,
    /// What it names, if anything.
    pub name: Option<Vec<u8>>,
}

/// The first pointer of a current record that does not name what it must, or none.
pub fn broken(record: Record) -> Result<Option<Broken>, Problem> {
    let answer = pointers(record);
    match answer.number {
        0 => return Ok(None),
        1..=9 => return Err(Problem::Refused(answer)),
        _ => {}
    }
    let place = answer.place;
    let commands = decode::commands(record).map_err(|place| Problem::Undecoded { place })?;
    let (type_name, said) = field_at(&commands, place).ok_or(Problem::Undecoded { place })?;
    let text = |index| said.text(index).map(<[u8]>::to_vec);
    let kind = text(1).unwrap_or_default();
    let name = match &kind[..] {
        b"struct_array_ptr" | b"struct_ptr_array_ptr" => text(3),
        _ => text(2),
    };
    Ok(Some(Broken {
        number: answer.number,
        place,
        type_name,
        field: text(0).unwrap_or_default(),
        kind,
        name,
    }))
}

/// The field whose command stands at a place, with the whole name of its type.
fn field_at(commands: &[Said], place: usize) -> Option<(Vec<u8>, &Said)> {
    let mut at = 0;
    let (mut family, mut open) = (Vec::new(), Vec::new());
    for said in commands {
        let text = || said.text(0).unwrap_or_default().to_vec();
        match said.command.byte {
            STRUCT => open = text(),
            FAMILY => {
                family = text();
                open = text();
            }
            VARIANT => open = [&family[..], b"::", &text()].concat(),
            FIELD if at == place => return Some((open, said)),
            _ => {}
        }
        at += said.command.width();
    }
    None
}
