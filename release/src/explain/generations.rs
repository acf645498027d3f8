//! The verdicts 40 to 46: generation numbers and the types that they cover.

use super::example::Example;
use super::Page;

pub(super) static PAGES: [Page; 7] = [
    Page {
        number: 40,
        means: "A type is new or changed, and no struct with the slot metadata, runtime or info refers to it, not \
                even by way of others.",
        why: "No generation number covers it, so a reader could not tell the old bytes from the new ones.",
        cure: "Refer to the type from a struct with a slot, by a field such as `field tiles struct_array_ptr \
               element=tile`, or take the change back. `release owner RECORD NAME` says what covers a name.",
        example: Example::Checked {
            current: "head 1.1.0\nstruct tile\nend\n",
            released: "head 1.0.0\nend\n",
        },
    },
    Page {
        number: 41,
        means: "A struct with the slot metadata, runtime or info names no constant by `version`, or one that is not \
                there, is a text, or is not a number from 0 to 4294967295.",
        why: "The struct carries a generation number, and nothing says which it is.",
        cure: "Name the constant in the line of the struct, as in `struct scan slot=metadata version=GENERATION`, and \
               declare it, as in `constant GENERATION 1`.",
        example: Example::Checked {
            current: "head 1.1.0\nstruct scan slot=metadata\nend\n",
            released: "head 1.0.0\nend\n",
        },
    },
    Page {
        number: 42,
        means: "The constant that holds a generation number was below 0 or above 4294967295 in the last release.",
        why: "It is no number that a generation can have, so it cannot be said how far it rose.",
        cure: "Let the struct name another constant by `version`, and begin its generations there.",
        example: Example::Checked {
            current: "head 1.1.0\nconstant GENERATION 1\nstruct scan slot=metadata version=GENERATION\nend\n",
            released: "head 1.0.0\nconstant GENERATION -1\nstruct scan slot=metadata version=GENERATION\nend\n",
        },
    },
    Page {
        number: 43,
        means: "A type that a struct with a slot covers is new or changed, and the struct's generation number is the \
                last release's.",
        why: "The number tells a reader which layout the bytes have; two layouts under one number cannot be told \
              apart.",
        cure: "Raise the constant by one, and add a `version` line with the struct and the new number.",
        example: Example::Checked {
            current: "head 1.1.0\nconstant GENERATION 3\nstruct scan slot=metadata version=GENERATION\n    \
                      field n scalar type=u8\nend\n",
            released: "head 1.0.0\nconstant GENERATION 3\nstruct scan slot=metadata version=GENERATION\nend\n",
        },
    },
    Page {
        number: 44,
        means: "A generation number rose by one, and no `version` line has the struct with that number.",
        why: "The line says that the generation ships; without it the number says nothing to a reader.",
        cure: "Add a `version` line with the struct and the new number.",
        example: Example::Checked {
            current: "head 1.1.0\nconstant GENERATION 4\nstruct scan slot=metadata version=GENERATION\nend\n",
            released: "head 1.0.0\nconstant GENERATION 3\nstruct scan slot=metadata version=GENERATION\nend\n",
        },
    },
    Page {
        number: 45,
        means: "A generation number rose by more than one since the last release.",
        why: "Each release has at most one new generation, so that a reader can name every layout in between.",
        cure: "Raise the constant by one alone. If a release lies between the two records, check against that one: \
               the released record is too old.",
        example: Example::Checked {
            current: "head 1.1.0\nconstant GENERATION 5\nstruct scan slot=metadata version=GENERATION\nend\n",
            released: "head 1.0.0\nconstant GENERATION 3\nstruct scan slot=metadata version=GENERATION\nend\n",
        },
    },
    Page {
        number: 46,
        means: "A generation number is lower than in the last release.",
        why: "A number that was used stands for another layout already.",
        cure: "Put the constant back, or raise it by one with a `version` line where a type that it covers changed.",
        example: Example::Checked {
            current: "head 1.1.0\nconstant GENERATION 2\nstruct scan slot=metadata version=GENERATION\nend\n",
            released: "head 1.0.0\nconstant GENERATION 3\nstruct scan slot=metadata version=GENERATION\nend\n",
        },
    },
];
