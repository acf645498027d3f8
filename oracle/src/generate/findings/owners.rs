//! Fixed questions for the owner call: findings E43 to E46.

use crate::generate::encode::encode_spread;
use crate::generate::make::{content, family, field, pointer, root, scalar, slotted, structure};
use crate::generate::questions::Question;
use crate::model::{Content, Struct};

/// A record with the names that are asked of it.
#[derive(Clone, Debug)]
pub struct FixedQuestion {
    pub label: &'static str,
    pub content: Content,
    pub names: Vec<&'static str>,
}

impl FixedQuestion {
    /// One question for each name.
    pub fn questions(&self) -> Vec<Question> {
        let ask = |name: &&str| Question {
            record: encode_spread(&self.content),
            name: name.as_bytes().to_vec(),
        };
        self.names.iter().map(ask).collect()
    }
}

pub fn questions() -> Vec<FixedQuestion> {
    let mut questions = roots();
    questions.extend(walks());
    questions.extend(references());
    questions
}

fn fixed(label: &'static str, content: Content, names: &[&'static str]) -> FixedQuestion {
    FixedQuestion {
        label,
        content,
        names: names.to_vec(),
    }
}

fn plain() -> Content {
    content("0.9.0")
}

fn metadata(name: &str) -> Struct {
    root(name, "metadata", "G")
}

/// Findings E43 and E44: which structures are roots, and what stops a walk.
fn roots() -> Vec<FixedQuestion> {
    vec![
        fixed(
            "e43 the slotted structure is the second of its name",
            plain()
                .with(structure("a").field(pointer("p", "b")))
                .with(metadata("a").field(pointer("q", "c"))),
            &["a", "b", "c"],
        ),
        fixed(
            "e43 one name in two slots",
            plain()
                .with(slotted("a", "info").field(pointer("p", "b")))
                .with(slotted("a", "runtime"))
                .with(slotted("a", "metadata")),
            &["a", "b"],
        ),
        fixed(
            "e43 two structures in one slot",
            plain()
                .with(metadata("a").field(pointer("p", "x")))
                .with(metadata("b").field(pointer("p", "y"))),
            &["a", "b", "x", "y"],
        ),
        fixed(
            "e43 the slot of the first of the name stops the walk",
            plain()
                .with(
                    metadata("r")
                        .field(pointer("p", "x"))
                        .field(pointer("q", "y")),
                )
                .with(slotted("x", ""))
                .with(structure("x"))
                .with(structure("y"))
                .with(slotted("y", "other")),
            &["x", "y"],
        ),
        fixed(
            "e44 slot texts that are no roots",
            plain()
                .with(
                    metadata("r")
                        .field(pointer("p", "x"))
                        .field(pointer("q", "y")),
                )
                .with(slotted("x", "").field(pointer("p", "under")))
                .with(slotted("y", "Metadata")),
            &["r", "x", "y", "under"],
        ),
        fixed(
            "e44 roots that refer to each other",
            plain()
                .with(
                    slotted("i", "info")
                        .field(pointer("p", "m"))
                        .field(pointer("q", "r")),
                )
                .with(
                    slotted("r", "runtime")
                        .field(pointer("p", "i"))
                        .field(pointer("q", "t")),
                )
                .with(metadata("m").field(pointer("p", "r"))),
            &["i", "r", "m", "t"],
        ),
        fixed(
            "e44 a type that three roots reach",
            plain()
                .with(
                    slotted("i", "info")
                        .field(pointer("p", "t"))
                        .field(pointer("q", "u")),
                )
                .with(
                    slotted("r", "runtime")
                        .field(pointer("p", "t"))
                        .field(pointer("q", "u")),
                )
                .with(metadata("m").field(pointer("p", "t"))),
            &["t", "u"],
        ),
        fixed(
            "e44 an info root alone",
            plain().with(slotted("i", "info").field(pointer("p", "t"))),
            &["i", "t", "m"],
        ),
        fixed("e44 no root", plain().with(structure("a")), &["a", ""]),
        fixed("e44 an empty record", plain(), &["a", ""]),
        fixed(
            "e44 a root with an empty name",
            plain().with(metadata("").field(pointer("p", "t"))),
            &["", "t"],
        ),
    ]
}

/// Findings E45 and E46: whose fields are walked, and undeclared names.
fn walks() -> Vec<FixedQuestion> {
    let common = family("f").common(pointer("p", "c"));
    let whole = common
        .variant("v", &[pointer("q", "d")])
        .variant("w", &[pointer("q", "e")]);
    vec![
        fixed(
            "e45 a structure hides a family of its name",
            plain()
                .with(metadata("r").field(pointer("p", "f")))
                .with(whole.clone())
                .with(structure("f").field(pointer("p", "b"))),
            &["f", "b", "c", "d"],
        ),
        fixed(
            "e45 a family's common and variant fields",
            plain()
                .with(metadata("r").field(field("p", "tagged_fam_ptr").of("f")))
                .with(whole.clone()),
            &["f", "c", "d", "e", "f::v"],
        ),
        fixed(
            "e45 the first family of the name",
            plain()
                .with(metadata("r").field(field("p", "tagged_fam_ptr").of("f")))
                .with(family("f").common(pointer("p", "x")))
                .with(whole),
            &["x", "c", "d"],
        ),
        fixed(
            "e46 undeclared names",
            plain().with(
                metadata("r")
                    .field(pointer("p", "f::v"))
                    .field(pointer("q", "a::b")),
            ),
            &["f::v", "a::b", "f", "a"],
        ),
        fixed(
            "e46 a cycle and a self-reference",
            plain()
                .with(metadata("r").field(pointer("p", "a")))
                .with(
                    structure("a")
                        .field(pointer("p", "b"))
                        .field(pointer("q", "a")),
                )
                .with(
                    structure("b")
                        .field(pointer("p", "a"))
                        .field(pointer("q", "r")),
                ),
            &["a", "b", "r"],
        ),
        fixed("e46 a long chain", long_chain(), &["759"]),
        fixed(
            "e46 as many undeclared names as a stream holds",
            undeclared(),
            &["991"],
        ),
        fixed("e46 the deepest walk", deepest_walk(), &["t"]),
        fixed(
            "d42 the call does not shorten its name",
            plain().with(metadata("a").field(pointer("p", "b"))),
            &["a::b", "b::c", "a", "b"],
        ),
    ]
}

/// A chain of structures that fills the stream.
fn long_chain() -> Content {
    let mut chain = plain().with(metadata("0").field(pointer("p", "1")));
    for n in 1..=759 {
        let next = format!("{}", n + 1);
        let step = structure(&n.to_string());
        chain = chain.with(match n {
            759 => step,
            _ => step.field(pointer("p", &next)),
        });
    }
    chain
}

/// A root whose fields fill the stream, each with another undeclared name.
fn undeclared() -> Content {
    let names = (0..=991).map(|n| n.to_string());
    plain().with(names.fold(metadata("r"), |r, n| r.field(pointer("p", &n))))
}

/// A type whose references to itself fill the stream: a walk that marks no
/// types goes over it once for each field, with all of them under way at once.
fn deepest_walk() -> Content {
    let itself = std::iter::repeat_n(pointer("p", "t"), 991);
    plain()
        .with(metadata("r").field(pointer("p", "t")))
        .with(itself.fold(structure("t"), Struct::field))
}

/// Finding C23: which operand a reference is in.
fn references() -> Vec<FixedQuestion> {
    let fields = |kind: &str| {
        let r = metadata("r").field(field("p", kind).of("t").each("e"));
        r.field(field("q", kind).of("only t"))
            .field(field("s", kind).each("only e"))
    };
    let kinds = [
        ("c23 struct_ptr", "struct_ptr"),
        ("c23 tagged_fam_ptr", "tagged_fam_ptr"),
        ("c23 simple_fam_ptr", "simple_fam_ptr"),
        ("c23 struct_array_ptr", "struct_array_ptr"),
        ("c23 struct_ptr_array_ptr", "struct_ptr_array_ptr"),
        ("c23 opaque_ptr", "opaque_ptr"),
        ("c23 cstr_ptr", "cstr_ptr"),
        ("c23 fn_ptr", "fn_ptr"),
        ("c23 scalar", "scalar"),
        ("c23 a kind with a space", "struct_ptr "),
        ("c23 a kind in capitals", "STRUCT_PTR"),
    ];
    let asked = ["t", "e", "only t", "only e"];
    let mut questions: Vec<FixedQuestion> = kinds
        .into_iter()
        .map(|(label, kind)| fixed(label, plain().with(fields(kind)), &asked))
        .collect();
    questions.push(fixed(
        "c23 a reference without name",
        plain().with(
            metadata("r")
                .field(field("p", "struct_ptr"))
                .field(scalar("n", "u8")),
        ),
        &["", "u8"],
    ));
    questions
}
