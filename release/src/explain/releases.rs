//! The verdicts 11 to 19: which record is the later one, and in which release something arrived.

use super::example::Example;
use super::Page;

pub(super) static PAGES: [Page; 9] = [
    Page {
        number: 11,
        means: "The `head` of the released record says `unreleased`, and yet the record has a constant, alias, enum, \
                bit field, struct or family.",
        why: "Either a release has shipped or none has. A record that says none asks for no comparison, and a field \
              could move without anybody noticing.",
        cure: "If a release has shipped, take `unreleased` out of its `head` and write the release there. If none \
               has, the released record is `head unreleased` and `end` alone.",
        example: Example::Checked {
            current: "head 1.0.0\nend\n",
            released: "head unreleased\nconstant WELLS 96\nend\n",
        },
    },
    Page {
        number: 12,
        means: "The release in the current `head` is not three numbers joined by dots, each up to 4294967295 and \
                without zeros in front.",
        why: "Two releases are compared number by number; another form has no order.",
        cure: "Write the release in the current head like `head 1.1.0`.",
        example: Example::Checked { current: "head 1.1\nend\n", released: "head 1.0.0\nend\n" },
    },
    Page {
        number: 13,
        means: "The `head` of the released record has no release, so it is older than 0.8.0; the current release is \
                below 0.8.0 too.",
        why: "Heads have named their release since 0.8.0, so of these two nobody knows which came first.",
        cure: "Write the release into the released record's head, or raise the current one to 0.8.0 or more.",
        example: Example::Checked { current: "head 0.7.9\nend\n", released: "head\nend\n" },
    },
    Page {
        number: 14,
        means: "The release in the released `head` is not three numbers joined by dots, each up to 4294967295 and \
                without zeros in front.",
        why: "Two releases are compared number by number; another form has no order.",
        cure: "Take the record as it shipped. Where it shipped like this, write its release into the head in the form \
               1.0.0.",
        example: Example::Checked { current: "head 1.1.0\nend\n", released: "head 1.0\nend\n" },
    },
    Page {
        number: 15,
        means: "The release in the released `head` is the current one or a later one.",
        why: "The record would be compared with a copy of itself, or with one that comes after it, and the comparison \
              would say nothing of what shipped.",
        cure: "Raise the release in the current head. If the two files are in the wrong order, name the current one \
               first.",
        example: Example::Checked { current: "head 1.0.0\nend\n", released: "head 1.0.0\nend\n" },
    },
    Page {
        number: 16,
        means: "A `value` is new in an `enum` with `api`, has no `since` of its own, and the `since` of its enum is \
                another release than the current one.",
        why: "The value would count as old as its enum. A plugin that uses it would be let onto devices that do not \
              know it.",
        cure: "Add `since` with the current release to the line of the value.",
        example: Example::Checked {
            current: "head 1.1.0\nenum step 1 api since=1.0.0\n    value WAIT 0\n    value MOVE 1\nend\n",
            released: "head 1.0.0\nenum step 1 api since=1.0.0\n    value WAIT 0\nend\n",
        },
    },
    Page {
        number: 17,
        means: "A `constant` or `enum` with `api`, a `value` of such an enum, or a plugin key is not in the last \
                release, and its `since` is another release than the current one.",
        why: "It arrives now. Plugins ask for the release that `since` names, and would run where it is not known, \
              or be refused where it is.",
        cure: "Set its `since` to the current release.",
        example: Example::Checked {
            current: "head 1.1.0\nconstant WELLS 96 api since=1.0.0\nend\n",
            released: "head 1.0.0\nend\n",
        },
    },
    Page {
        number: 18,
        means: "The `since` of a `constant`, `enum`, `value` or plugin key is another one than in the last release.",
        why: "The release in which something arrived is a fact, and plugins that shipped were built on it.",
        cure: "Set its `since` back to what the last release says.",
        example: Example::Checked {
            current: "head 1.1.0\nconstant WELLS 96 api since=1.1.0\nend\n",
            released: "head 1.0.0\nconstant WELLS 96 api since=1.0.0\nend\n",
        },
    },
    Page {
        number: 19,
        means: "A `constant`, `enum`, `value` or plugin key is in the last release without a `since`, and now says \
                that it arrives in the current release.",
        why: "It was there before, so it cannot arrive now.",
        cure: "Set its `since` to the earlier release in which it arrived.",
        example: Example::Checked {
            current: "head 1.1.0\nconstant WELLS 96 api since=1.1.0\nend\n",
            released: "head 1.0.0\nconstant WELLS 96 api\nend\n",
        },
    },
];
