//! The verdicts 33 to 39: the fields of types, and standalone families.

use super::example::Example;
use super::Page;

pub(super) static PAGES: [Page; 7] = [
    Page {
        number: 33,
        means: "A `struct`, `family` or `variant` of the last release is not in the current record.",
        why: "Images that were written with it are still there, and readers that shipped look for its bytes.",
        cure: "Put the type back with all its fields.",
        example: Example::Checked {
            current: "head 1.1.0\nend\n",
            released: "head 1.0.0\nstruct tile\nend\n",
        },
    },
    Page {
        number: 34,
        means: "A `field` of the last release that is no padding is not in its type any more.",
        why: "Readers that shipped cut it from the bytes still, and would take whatever stands there now.",
        cure: "Put the field back at its place, under its name. A field that nobody should use any more stays.",
        example: Example::Checked {
            current: "head 1.1.0\nstruct tile\nend\n",
            released: "head 1.0.0\nstruct tile\n    field n scalar type=u16\nend\n",
        },
    },
    Page {
        number: 35,
        means: "A `field` of the last release begins at another byte of its type.",
        why: "Readers that shipped cut it from the old bytes: every later image would be read one field over.",
        cure: "Put all fields of the type back to their old order and sizes. A new field comes last, or takes the \
               place of padding that is shortened by its size.",
        example: Example::Checked {
            current: "head 1.1.0\nstruct tile\n    field gap padding size=1\n    field n scalar type=u16\nend\n",
            released: "head 1.0.0\nstruct tile\n    field n scalar type=u16\nend\n",
        },
    },
    Page {
        number: 36,
        means: "A `field` of the last release begins where it did and has another size: its type, `count`, `rows` or \
                `cols` changed, or the size of the enum, alias or bit field that it names.",
        why: "Readers that shipped cut as many bytes as before, and so read too much or too little.",
        cure: "Put the field back as it was, and add a field of another name for the wider value.",
        example: Example::Checked {
            current: "head 1.1.0\nstruct tile\n    field n scalar type=u32\nend\n",
            released: "head 1.0.0\nstruct tile\n    field n scalar type=u16\nend\n",
        },
    },
    Page {
        number: 37,
        means: "A `field` of the last release stands where it did with its size, but its kind, type, `count`, `rows` \
                or `cols` read otherwise.",
        why: "A reader that shipped takes the bytes for what they were, such as a number where letters stand now.",
        cure: "Put its kind and type back, and add a field of another name for the new meaning.",
        example: Example::Checked {
            current: "head 1.1.0\nstruct tile\n    field n scalar type=char\nend\n",
            released: "head 1.0.0\nstruct tile\n    field n scalar type=u8\nend\n",
        },
    },
    Page {
        number: 38,
        means: "A `family` has gained or lost the word `standalone` since the last release.",
        why: "The word decides whether a generation covers the family or whether its shipped variants never change; \
              with another rule its changes would go unseen.",
        cure: "Put the word back as it was.",
        example: Example::Checked {
            current: "head 1.1.0\nfamily action op step len standalone\nend\n",
            released: "head 1.0.0\nfamily action op step len\nend\n",
        },
    },
    Page {
        number: 39,
        means: "A `standalone` family, or a `variant` of one, that is in the last release has other fields now, \
                padding included.",
        why: "No generation covers it: a reader that shipped reads the fields of each variant at fixed places.",
        cure: "Put the fields back as they were, and add a new `variant` for what is new.",
        example: Example::Checked {
            current: "head 1.1.0\nfamily action op step len standalone\n    field n scalar type=u8\nend\n",
            released: "head 1.0.0\nfamily action op step len standalone\nend\n",
        },
    },
];
