//! The verdicts 20 to 32: constants, enums and bit fields, and the releases of bit fields.

use super::example::Example;
use super::Page;

pub(super) static PAGES: [Page; 11] = [
    Page {
        number: 20,
        means: "A `constant` of the last release is not in the current record.",
        why: "Firmware, plugins and hosts that shipped name it still.",
        cure: "Put its line back. A constant that nobody should use any more stays, with its value.",
        example: Example::Checked {
            current: "head 1.1.0\nend\n",
            released: "head 1.0.0\nconstant WELLS 96\nend\n",
        },
    },
    Page {
        number: 21,
        means: "A `constant` has another value than in the last release. A constant that a struct with a slot names \
                as its `version` is free of this rule.",
        why: "All sides agreed on the value, and those that shipped are not built again.",
        cure: "Put the value back, and add a constant of another name for the new value.",
        example: Example::Checked {
            current: "head 1.1.0\nconstant WELLS 384\nend\n",
            released: "head 1.0.0\nconstant WELLS 96\nend\n",
        },
    },
    Page {
        number: 22,
        means: "An `enum` of the last release that has values is not in the current record.",
        why: "Devices and hosts hold its numbers still.",
        cure: "Put the enum back with all its values.",
        example: Example::Checked {
            current: "head 1.1.0\nend\n",
            released: "head 1.0.0\nenum step 1\n    value WAIT 0\nend\n",
        },
    },
    Page {
        number: 23,
        means: "A `value` of an enum has another number than in the last release.",
        why: "The numbers stand in images and devices; a reader that shipped would take one value for another.",
        cure: "Put its number back, and give new values numbers that no value had.",
        example: Example::Checked {
            current: "head 1.1.0\nenum step 1\n    value WAIT 1\nend\n",
            released: "head 1.0.0\nenum step 1\n    value WAIT 0\nend\n",
        },
    },
    Page {
        number: 24,
        means: "A `value` of the last release is gone, and another one has its number.",
        why: "A value keeps its name: programs that shipped use it.",
        cure: "Put the old name back. A second value with that number may follow behind it as another name.",
        example: Example::Checked {
            current: "head 1.1.0\nenum step 1\n    value PAUSE 0\nend\n",
            released: "head 1.0.0\nenum step 1\n    value WAIT 0\nend\n",
        },
    },
    Page {
        number: 25,
        means: "A `value` of the last release is gone, and no other one has its number.",
        why: "Images and devices hold its number still.",
        cure: "Put its line back. A value that nobody should use any more stays.",
        example: Example::Checked {
            current: "head 1.1.0\nenum step 1\nend\n",
            released: "head 1.0.0\nenum step 1\n    value WAIT 0\nend\n",
        },
    },
    Page {
        number: 26,
        means: "A `bitfield` of the last release is not in the current record.",
        why: "Hosts read its bits still.",
        cure: "Put the bit field back with all its members.",
        example: Example::Checked {
            current: "head 1.1.0\nend\n",
            released: "head 1.0.0\nbitfield flags 1 since=1.0.0\n    member homed 0\nend\n",
        },
    },
    Page {
        number: 27,
        means: "A `member` of the last release is gone, and another one has its bit and width.",
        why: "A member keeps its name: programs that shipped use it.",
        cure: "Put the old name back.",
        example: Example::Checked {
            current: "head 1.1.0\nbitfield flags 1 since=1.0.0\n    member ready 0\nend\n",
            released: "head 1.0.0\nbitfield flags 1 since=1.0.0\n    member homed 0\nend\n",
        },
    },
    Page {
        number: 28,
        means: "A `member` of the last release is gone, and no other one has its bit and width.",
        why: "Hosts read its bits still.",
        cure: "Put its line back. A member that nobody should use any more stays.",
        example: Example::Checked {
            current: "head 1.1.0\nbitfield flags 1 since=1.0.0\nend\n",
            released: "head 1.0.0\nbitfield flags 1 since=1.0.0\n    member homed 0\nend\n",
        },
    },
    Page {
        number: 29,
        means: "A `member` begins at another bit than in the last release.",
        why: "Hosts that shipped read the old bit, and would take another member's for it.",
        cure: "Put its bit back, and give new members bits that none had.",
        example: Example::Checked {
            current: "head 1.1.0\nbitfield flags 1 since=1.0.0\n    member homed 1\nend\n",
            released: "head 1.0.0\nbitfield flags 1 since=1.0.0\n    member homed 0\nend\n",
        },
    },
    Page {
        number: 30,
        means: "A `member` has another `width` than in the last release; without `width` it has one bit.",
        why: "Hosts that shipped read as many bits as before.",
        cure: "Put its width back, and add a member of another name for the bits beside it.",
        example: Example::Checked {
            current: "head 1.1.0\nbitfield flags 1 since=1.0.0\n    member speed 0 width=3\nend\n",
            released: "head 1.0.0\nbitfield flags 1 since=1.0.0\n    member speed 0 width=2\nend\n",
        },
    },
];

pub(super) static BIT_FIELD_RELEASES: [Page; 2] = [
    Page {
        number: 31,
        means: "A `bitfield` or `member` is not in the last release, and its `since` is another release than the \
                current one. A member without `since` has that of its bit field.",
        why: "It arrives now, and a host that asks for an earlier release would read bits that nobody wrote.",
        cure: "Set its `since` to the current release.",
        example: Example::Checked {
            current: "head 1.1.0\nbitfield flags 1 since=1.0.0\n    member homed 0\nend\n",
            released: "head 1.0.0\nbitfield flags 1 since=1.0.0\nend\n",
        },
    },
    Page {
        number: 32,
        means: "The `since` of a `bitfield` or `member` is another one than in the last release.",
        why: "The release in which something arrived is a fact, and hosts that shipped were built on it.",
        cure: "Set its `since` back to what the last release says.",
        example: Example::Checked {
            current: "head 1.1.0\nbitfield flags 1 since=1.1.0\nend\n",
            released: "head 1.0.0\nbitfield flags 1 since=1.0.0\nend\n",
        },
    },
];
