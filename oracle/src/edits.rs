//! The edits of a draft, written from document 02's W-210: a type added or taken
//! out, and the number of changed layouts beside the draft.

use crate::commands::{self, Form};
use crate::generate::encode::Encoded;

use crate::layout::Layout;
use crate::model::{Content, Side};
use crate::operands::Operands;
use crate::parts::Parts;
use crate::reader::{self, POOL_LIMIT, Record, Refusal, STREAM_LIMIT, read};
use crate::values;

pub const HELD: u32 = 55;
pub const NO_SUCH: u32 = 56;

/// The side of an addition's own refusals.
pub const ADDITION: u32 = 2;

#[derive(Clone, Debug, PartialEq, Eq)]
pub enum Edit {
    Add(Encoded),
    Remove(Vec<u8>),
}

/// What a call of a draft answers, and the draft's buffer afterwards.
#[derive(Clone, Debug, PartialEq, Eq)]
pub struct Edited {
    pub number: u32,
    pub side: u32,
    pub place: usize,
    pub length: usize,
    pub changed: usize,
    pub buffer: Vec<u8>,
}

/// A draft as it lies in its buffer: two parts.
pub fn held(buffer: &[u8]) -> Encoded {
    let mut parts = Parts::new(buffer.to_vec());
    Encoded {
        stream: parts.part(),
        pool: parts.part(),
    }
}

/// A record as two parts.
pub fn parts_of(record: &Encoded) -> Vec<u8> {
    let mut bytes = Vec::new();
    for part in [&record.stream, &record.pool] {
        bytes.extend((part.len() as u32).to_le_bytes());
        bytes.extend(part);
    }
    bytes
}

/// The count found afresh.
pub fn count(buffer: &[u8], copy: &Encoded) -> Edited {
    let state = State { changed: 0, buffer };
    match state.opened(copy) {
        Ok((draft, copy)) => Edited {
            changed: changed(&draft.content, &copy.content),
            ..state.answer(0, 0)
        },
        Err(refused) => *refused,
    }
}

/// One edit.
pub fn edit(changed: usize, buffer: &[u8], edit: &Edit, copy: &Encoded) -> Edited {
    let state = State { changed, buffer };
    match state.edited(edit, copy) {
        Ok(edited) => edited,
        Err(refused) => *refused,
    }
}

/// What a refused call leaves as it was.
struct State<'a> {
    changed: usize,
    buffer: &'a [u8],
}

type Refused = Box<Edited>;

impl State<'_> {
    fn answer(&self, number: u32, length: usize) -> Edited {
        Edited {
            number,
            side: 0,
            place: 0,
            length,
            changed: self.changed,
            buffer: self.buffer.to_vec(),
        }
    }

    fn refused(&self, refusal: Refusal, side: u32) -> Refused {
        Box::new(Edited {
            side,
            place: refusal.place,
            ..self.answer(refusal.number, 0)
        })
    }

    /// The draft, then the copy, read.
    fn opened(&self, copy: &Encoded) -> Result<(Record, Record), Refused> {
        let draft = held(self.buffer);
        let draft = read(Side::Current, &draft.stream, &draft.pool)
            .map_err(|refusal| self.refused(refusal, 0))?;
        let copy = read(Side::Released, &copy.stream, &copy.pool)
            .map_err(|refusal| self.refused(refusal, 1))?;
        Ok((draft, copy))
    }

    fn edited(&self, edit: &Edit, copy: &Encoded) -> Result<Edited, Refused> {
        let (_, copy) = self.opened(copy)?;
        let draft = held(self.buffer);
        let mut kept = commands_of(&draft);
        let mut more = Vec::new();
        let mut texts: &[u8] = &[];
        match edit {
            Edit::Add(addition) => {
                judge(addition).map_err(|refusal| self.refused(refusal, ADDITION))?;
                more = commands_of(addition);
                more.remove(0);
                texts = &addition.pool;
                let name = more[0].name(texts);
                if kept
                    .iter()
                    .any(|c| c.is_type() && c.name(&draft.pool) == name)
                {
                    return Err(Box::new(self.answer(HELD, 0)));
                }
            }
            Edit::Remove(name) => {
                let named = |c: &Command| c.is_type() && c.name(&draft.pool) == name;
                let Some(from) = kept.iter().position(named) else {
                    return Err(Box::new(self.answer(NO_SUCH, 0)));
                };
                let parts = kept[from + 1..].iter().take_while(|c| c.is_part()).count();
                kept.drain(from..from + 1 + parts);
            }
        }
        self.settled(&joined(&kept, &draft.pool, &more, texts), &copy)
    }

    /// The result's 8 or 9, then 10.
    fn settled(&self, result: &Encoded, copy: &Record) -> Result<Edited, Refused> {
        let record = read(Side::Current, &result.stream, &result.pool)
            .map_err(|refusal| self.refused(refusal, 0))?;
        let front = parts_of(result);
        if front.len() > self.buffer.len() {
            return Err(Box::new(self.answer(10, front.len())));
        }
        let mut edited = self.answer(0, 0);
        edited.changed = changed(&record.content, &copy.content);
        edited.buffer[..front.len()].copy_from_slice(&front);
        Ok(edited)
    }
}

/// How many names of layouts are in one of the records alone, or in both with
/// layouts that are not equal.
pub fn changed(draft: &Content, copy: &Content) -> usize {
    let is = Layout::of_schema(&values::schema(draft)).types;
    let was = Layout::of_released(&values::released(copy)).types;
    let now = is
        .iter()
        .filter(|(name, layout)| was.get(*name) != Some(layout));
    now.count() + was.keys().filter(|name| !is.contains_key(*name)).count()
}

/// A command with its operands, and where among its bytes each text stands.
struct Command {
    bytes: Vec<u8>,
    texts: Vec<usize>,
}

impl Command {
    fn is_type(&self) -> bool {
        matches!(self.bytes[0], commands::STRUCT | commands::FAMILY)
    }

    fn is_part(&self) -> bool {
        matches!(
            self.bytes[0],
            commands::VARIANT | commands::FIELD | commands::FIELD_KEY
        )
    }

    /// Start and end of the text at a place of the bytes.
    fn stretch(&self, at: usize) -> (usize, usize) {
        let start = u16::from_le_bytes([self.bytes[at], self.bytes[at + 1]]).into();
        (start, start + usize::from(self.bytes[at + 2]))
    }

    /// The text that a type's command begins with.
    fn name<'p>(&self, pool: &'p [u8]) -> &'p [u8] {
        let (start, end) = self.stretch(1);
        &pool[start..end]
    }
}

/// The commands of a readable record before its 0F.
fn commands_of(record: &Encoded) -> Vec<Command> {
    let mut found = Vec::new();
    let mut rest = record.stream.as_slice();
    while rest[0] != commands::END {
        let forms = commands::operands(rest[0]).expect("the record is readable");
        let (bytes, after) = rest.split_at(commands::width(forms));
        let mut texts = Vec::new();
        let mut at = 1;
        for form in forms {
            if form.is_text() && bytes[at..at + 3] != [0xFF, 0xFF, 0] {
                texts.push(at);
            }
            at += form.width();
        }
        found.push(Command {
            bytes: bytes.to_vec(),
            texts,
        });
        rest = after;
    }
    found
}

/// Two rows of commands as one record: of each pool the bytes that a text
/// covers, and each start moved along.
fn joined(kept: &[Command], pool: &[u8], more: &[Command], texts: &[u8]) -> Encoded {
    let mut result = Encoded::default();
    put(&mut result, kept, pool);
    put(&mut result, more, texts);
    result.stream.push(commands::END);
    result
}

fn put(result: &mut Encoded, row: &[Command], pool: &[u8]) {
    let mut covered = vec![false; pool.len()];
    for command in row {
        for &at in &command.texts {
            let (start, end) = command.stretch(at);
            covered[start..end].fill(true);
        }
    }
    let mut moved = Vec::with_capacity(pool.len() + 1);
    for (&byte, covered) in pool.iter().zip(&covered) {
        moved.push(result.pool.len());
        if *covered {
            result.pool.push(byte);
        }
    }
    moved.push(result.pool.len());
    for command in row {
        let mut bytes = command.bytes.clone();
        for &at in &command.texts {
            let start = moved[command.stretch(at).0] as u16;
            bytes[at..at + 2].copy_from_slice(&start.to_le_bytes());
        }
        result.stream.extend(bytes);
    }
}

/// An addition's own refusals: 8, 7, then command by command 2, 1, 3, 4, 5, 6.
pub fn judge(addition: &Encoded) -> Result<(), Refusal> {
    let Encoded { stream, pool } = addition;
    let refuse = |number, place| Err(Refusal { number, place });
    if stream.len() > STREAM_LIMIT || pool.len() > POOL_LIMIT {
        return refuse(reader::LONG, 0);
    }
    let pool = reader::judged_pool(pool)?;
    let mut before: Vec<u8> = Vec::new();
    let mut at = 0;
    while before.last() != Some(&commands::END) {
        let Some(&byte) = stream.get(at) else {
            return refuse(reader::CUT, at);
        };
        let Some(forms) = commands::operands(byte) else {
            return refuse(reader::UNKNOWN, at);
        };
        let Some(bytes) = stream.get(at + 1..at + commands::width(forms)) else {
            return refuse(reader::CUT, at);
        };
        if !stands(&before, byte) {
            return refuse(reader::MISPLACED, at);
        }
        if let Some(number) = fault(byte, forms, bytes, pool) {
            return refuse(number, at);
        }
        before.push(byte);
        at += commands::width(forms);
    }
    match at < stream.len() {
        true => refuse(reader::MISPLACED, at),
        false => Ok(()),
    }
}

fn fault(byte: u8, forms: &[Form], bytes: &[u8], pool: &str) -> Option<u32> {
    Operands::new(bytes, pool).fault(byte, forms, Side::Current)
}

/// Whether a command may stand in an addition behind these.
fn stands(before: &[u8], byte: u8) -> bool {
    match before {
        [] => byte == commands::HEAD,
        [_] => matches!(byte, commands::STRUCT | commands::FAMILY),
        [_, opened, ..] => match byte {
            commands::VARIANT => *opened == commands::FAMILY,
            commands::FIELD_KEY => before.last() == Some(&commands::FIELD),
            _ => matches!(byte, commands::FIELD | commands::END),
        },
    }
}
