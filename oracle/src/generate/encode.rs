//! Contents as bytes: a command stream and the pool of its texts.

use crate::commands;
use crate::model::{BitField, Constant, Content, Enum, Family, Field, Item, Key, Struct, Value};
use crate::rng::Rng;

#[derive(Clone, Debug, Default, PartialEq, Eq)]
pub struct Encoded {
    pub stream: Vec<u8>,
    pub pool: Vec<u8>,
}

/// Encode with drawn variety: texts shared or repeated, and drawn bytes where
/// the reader looks at none.
pub fn encode(content: &Content, rng: &mut Rng) -> Encoded {
    let mut encoder = Encoder::new(Vec::new(), Packing::Drawn(rng));
    encoder.content(content);
    encoder.out
}

/// Encode with each text at a place of its own.
pub fn encode_spread(content: &Content) -> Encoded {
    let mut encoder = Encoder::new(Vec::new(), Packing::Spread);
    encoder.content(content);
    encoder.out
}

/// Encode with the shortest pool that sharing gives, and zeros where the reader
/// looks at no byte.
pub fn encode_tight(content: &Content) -> Encoded {
    let mut encoder = Encoder::new(Vec::new(), Packing::Shared);
    encoder.content(content);
    let mut texts = encoder.texts;
    texts.sort_by_key(|text| std::cmp::Reverse(text.len()));
    encode_over(content, packed(&texts))
}

/// Encode over a pool that has texts already: those that it has are taken from
/// it, the others are put at its end.
pub fn encode_over(content: &Content, pool: Vec<u8>) -> Encoded {
    let mut encoder = Encoder::new(pool, Packing::Shared);
    encoder.content(content);
    encoder.out
}

/// One pool with all texts in it, each put over the end of those before it.
fn packed(texts: &[String]) -> Vec<u8> {
    let mut pool = Vec::new();
    for text in texts.iter().map(|text| text.as_bytes()) {
        if find(&pool, text).is_none() {
            let shared = (0..text.len())
                .rev()
                .find(|&n| pool.ends_with(&text[..n]))
                .unwrap_or(0);
            pool.extend_from_slice(&text[shared..]);
        }
    }
    pool
}

fn find(pool: &[u8], text: &[u8]) -> Option<usize> {
    match text.len() {
        0 => Some(0),
        n => pool.windows(n).position(|window| window == text),
    }
}

/// Whether this place of a pool is inside a sequence of several bytes.
pub fn inside_sequence(pool: &[u8], at: usize) -> bool {
    pool.get(at)
        .is_some_and(|byte| (0x80..=0xBF).contains(byte))
}

/// This place, or the front of the sequence that it is inside of.
fn sequence_start(pool: &[u8], at: usize) -> usize {
    let whole = |at: &usize| !inside_sequence(pool, *at);
    (0..=at)
        .rev()
        .find(whole)
        .expect("a pool begins with a sequence")
}

/// How texts come into the pool.
enum Packing<'r> {
    Shared,
    Spread,
    Drawn(&'r mut Rng),
}

struct Encoder<'r> {
    out: Encoded,
    /// The texts met.
    texts: Vec<String>,
    packing: Packing<'r>,
}

impl<'r> Encoder<'r> {
    fn new(pool: Vec<u8>, packing: Packing<'r>) -> Self {
        Encoder {
            out: Encoded {
                stream: Vec::new(),
                pool,
            },
            texts: Vec::new(),
            packing,
        }
    }

    fn content(&mut self, content: &Content) {
        self.byte(commands::HEAD);
        self.optional(&content.release);
        self.flag(content.unreleased);
        for item in &content.items {
            self.item(item);
        }
        self.byte(commands::END);
    }

    fn item(&mut self, item: &Item) {
        match item {
            Item::Constant(c) => self.constant(c),
            Item::Alias(a) => {
                self.byte(commands::ALIAS);
                self.text(&a.name);
                self.text(&a.underlying);
            }
            Item::Enum(e) => self.enumeration(e),
            Item::BitField(b) => self.bit_field(b),
            Item::Struct(s) => self.structure(s),
            Item::Family(f) => self.family(f),
            Item::Key(k) => self.key(commands::KEY, k),
            Item::Version(v) => {
                self.byte(commands::VERSION);
                self.text(&v.struct_name);
                self.word(v.version);
            }
        }
    }

    fn constant(&mut self, c: &Constant) {
        self.byte(commands::CONSTANT);
        self.text(&c.name);
        match &c.value {
            Value::Integer(integer) => {
                self.flag(false);
                self.bytes(&integer.to_le_bytes());
                let unused = (self.junk() % 2 == 1).then(|| "unused".to_string());
                self.optional(&unused);
            }
            Value::Text(text) => {
                self.flag(true);
                let unused = self.junk();
                self.bytes(&unused.to_le_bytes());
                self.text(text);
            }
        }
        self.flag(c.ora_api);
        self.optional(&c.first_release);
    }

    fn enumeration(&mut self, e: &Enum) {
        self.byte(commands::ENUM);
        self.text(&e.name);
        self.word(e.size);
        self.flag(e.ora_api);
        self.optional(&e.first_release);
        for value in &e.values {
            self.byte(commands::VALUE);
            self.text(&value.name);
            self.bytes(&value.value.to_le_bytes());
            self.optional(&value.first_release);
        }
    }

    fn bit_field(&mut self, b: &BitField) {
        self.byte(commands::BIT_FIELD);
        self.text(&b.name);
        self.word(b.size);
        self.optional(&b.first_release);
        for member in &b.members {
            self.byte(commands::MEMBER);
            self.text(&member.name);
            self.word(member.bit);
            self.number(member.width);
            self.optional(&member.first_release);
        }
    }

    fn structure(&mut self, s: &Struct) {
        self.byte(commands::STRUCT);
        self.text(&s.name);
        self.optional(&s.slot);
        self.optional(&s.constant);
        self.fields(&s.fields);
    }

    fn family(&mut self, f: &Family) {
        self.byte(commands::FAMILY);
        self.text(&f.name);
        self.text(&f.discriminant_field);
        self.text(&f.discriminant_type);
        self.text(&f.param_len_field);
        self.optional(&f.param_len_type);
        self.flag(f.standalone);
        self.fields(&f.common_fields);
        for variant in &f.variants {
            self.byte(commands::VARIANT);
            self.text(&variant.discriminant);
            self.fields(&variant.fields);
        }
    }

    fn fields(&mut self, fields: &[Field]) {
        for field in fields {
            self.byte(commands::FIELD);
            self.text(&field.name);
            self.text(&field.kind);
            self.optional(&field.type_);
            self.optional(&field.element);
            for number in [field.count, field.rows, field.cols, field.size] {
                self.number(number);
            }
            if let Some(key) = &field.key {
                self.key(commands::FIELD_KEY, key);
            }
        }
    }

    fn key(&mut self, command: u8, key: &Key) {
        self.byte(command);
        self.text(&key.name);
        self.optional(&key.first_release);
    }

    fn byte(&mut self, byte: u8) {
        self.out.stream.push(byte);
    }

    fn bytes(&mut self, bytes: &[u8]) {
        self.out.stream.extend_from_slice(bytes);
    }

    fn flag(&mut self, flag: bool) {
        self.byte(flag.into());
    }

    fn word(&mut self, word: u32) {
        self.bytes(&word.to_le_bytes());
    }

    fn number(&mut self, number: Option<u32>) {
        self.flag(number.is_some());
        let unused = self.junk() as u32;
        self.word(number.unwrap_or(unused));
    }

    fn optional(&mut self, text: &Option<String>) {
        match text {
            Some(text) => self.text(text),
            None => self.bytes(&[0xFF, 0xFF, 0]),
        }
    }

    fn text(&mut self, text: &str) {
        let start = self.placed(text.as_bytes());
        let start = u16::try_from(start).expect("a text starts below 65,536");
        let length = u8::try_from(text.len()).expect("a text has up to 255 bytes");
        self.bytes(&start.to_le_bytes());
        self.byte(length);
        self.texts.push(text.into());
    }

    /// The place of a text in the pool, where it is put if need be.
    fn placed(&mut self, text: &[u8]) -> usize {
        let length = self.out.pool.len();
        let share = match &mut self.packing {
            Packing::Shared => true,
            Packing::Spread => false,
            Packing::Drawn(rng) if text.is_empty() => {
                let at = rng.below(length + 1);
                return sequence_start(&self.out.pool, at);
            }
            Packing::Drawn(rng) => rng.chance(60),
        };
        match find(&self.out.pool, text).filter(|_| share) {
            Some(at) => at,
            None => {
                self.out.pool.extend_from_slice(text);
                length
            }
        }
    }

    /// A number for a place that nothing reads: 0, or now and then a drawn one.
    fn junk(&mut self) -> u64 {
        match &mut self.packing {
            Packing::Drawn(rng) => match rng.chance(40) {
                true => rng.draw(),
                false => 0,
            },
            _ => 0,
        }
    }
}
