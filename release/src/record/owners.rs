//! The owners of all names of a record at once, by the walk that document 01 describes. The proved call answers for one
//! name; a test holds this walk to it.

use std::collections::HashMap;

use super::commands::{Said, FAMILY, FIELD, STRUCT};

/// The slots of document 01, in the order in which ownership takes them.
pub const SLOTS: [&[u8]; 3] = [b"metadata", b"runtime", b"info"];

/// The name of the root that owns each name; a name that nobody owns is not in it.
pub fn owners(commands: &[Said]) -> HashMap<&[u8], &[u8]> {
    let types = types(commands);
    let structures = || commands.iter().filter(|said| said.command.byte == STRUCT);
    let mut owners = HashMap::new();
    for slot in SLOTS {
        let Some(root) = structures().find(|said| said.text(1) == Some(slot)).and_then(|said| said.text(0))
        else {
            continue;
        };
        let mut reached = vec![root];
        while let Some(name) = reached.pop() {
            if owners.contains_key(name) {
                continue;
            }
            owners.insert(name, root);
            let fields = types.get(name).map_or(&[][..], |found| &found.references);
            let entered = fields.iter().filter(|named| !types.get(*named).is_some_and(|found| found.slotted));
            reached.extend(entered);
        }
    }
    owners
}

/// What a look-up of a name finds: the first structure of that name, or else the first family.
struct Found<'a> {
    of_struct: bool,
    slotted: bool,
    references: Vec<&'a [u8]>,
}

fn types(commands: &[Said]) -> HashMap<&[u8], Found<'_>> {
    let mut types: HashMap<&[u8], Found> = HashMap::new();
    let mut open: Option<&[u8]> = None;
    for said in commands {
        match said.command.byte {
            byte @ (STRUCT | FAMILY) => {
                let name = said.text(0).unwrap_or_default();
                let of_struct = byte == STRUCT;
                let taken = types.get(name).is_some_and(|found| found.of_struct || !of_struct);
                open = (!taken).then_some(name);
                if !taken {
                    let slotted = of_struct && said.text(1).is_some();
                    types.insert(name, Found { of_struct, slotted, references: Vec::new() });
                }
            }
            FIELD => {
                if let Some(found) = open.and_then(|name| types.get_mut(name)) {
                    found.references.extend(reference(said));
                }
            }
            _ => {}
        }
    }
    types
}

/// What a field refers to.
fn reference(field: &Said) -> Option<&[u8]> {
    match field.text(1)? {
        b"struct_ptr" | b"tagged_fam_ptr" | b"simple_fam_ptr" => field.text(2),
        b"struct_array_ptr" | b"struct_ptr_array_ptr" => field.text(3),
        _ => None,
    }
}
