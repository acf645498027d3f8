//! The refusals 1 to 9 of a record, and 10.

use super::example::Example;
use super::Page;

pub(super) static PAGES: [Page; 10] = [
    Page {
        number: 1,
        means: "The stream of a record ends inside a command, or no `end` closes it.",
        why: "What is lost at its end cannot be known, so nothing is taken from what is left.",
        cure: "Copy the file again from where it came, as bytes and not as text; or make the record anew from its \
               text with `release assemble`.",
        // The stream is a head without its operands.
        example: Example::Bytes { file: b"\x01\0\0\0\x01\0\0\0\0" },
    },
    Page {
        number: 2,
        means: "A command byte is none of 01 to 0F, which are the commands of the text form.",
        why: "Nobody knows how long such a command is, so nothing behind it can be read.",
        cure: "The file is damaged, is no record, or was written by a tool that knows more commands than this one. \
               Make the record anew from its text with `release assemble`, or use the release of this command that \
               belongs to that tool.",
        example: Example::Bytes { file: b"\x01\0\0\0\x10\0\0\0\0" },
    },
    Page {
        number: 3,
        means: "A command stands where it may not: something before `head` or a second `head`, a `value` that \
                follows no `enum`, a `member` that follows no `bitfield`, a `variant` outside a `family`, a `field` \
                outside a `struct`, `family` or `variant`, a `key` that is not right after its `field`; or bytes \
                follow `end`.",
        why: "What the command belongs to cannot be known.",
        cure: "Write the record as a text, where `release assemble` names the line, and make it anew. Bytes after \
               `end` come from two files that were put together, or from a stated length that is too large.",
        // The stream is an end without a head.
        example: Example::Bytes { file: b"\x01\0\0\0\x0f\0\0\0\0" },
    },
    Page {
        number: 4,
        means: "A text, such as a name or a release, reaches past the end of the pool, or begins or ends inside a \
                character; or one that is never left out is written as if it were.",
        why: "The bytes of the text are not there, or not whole, so its name is not known.",
        cure: "The end of the file is lost, or its stream and its pool come from two records. Copy the file again, or \
               make the record anew from its text with `release assemble`.",
        // A head whose release has five bytes, over an empty pool, and an end.
        example: Example::Bytes { file: b"\x06\0\0\0\x01\0\0\x05\0\x0f\0\0\0\0" },
    },
    Page {
        number: 5,
        means: "A text is left out that has to be there: in a current record the release of the `head`, and the \
                `since` of a `bitfield`, `key` or `unstored_key`; in every record the text of a text constant.",
        why: "Without the release the check cannot tell which record is the later, and without `since` not in which \
              release something arrived.",
        cure: "Write it, as in `head 1.1.0` or `bitfield flags 1 since=1.1.0`. If the record is the last release's, \
               name it second: a released record may lack these texts.",
        example: Example::Checked { current: "head\nend\n", released: "head 1.0.0\nend\n" },
    },
    Page {
        number: 6,
        means: "A flag, such as `unreleased`, `api` or `standalone`, or the one in front of a number that may be left \
                out, is neither 0 nor 1 in the bytes.",
        why: "A flag is yes or no; a third value is damage, and it is not guessed what was meant.",
        cure: "Copy the file again, or make the record anew from its text with `release assemble`, which writes 0 or \
               1.",
        example: Example::Bytes { file: b"\x06\0\0\0\x01\0\0\x05\x02\x0f\x05\0\0\x001.0.0" },
    },
    Page {
        number: 7,
        means: "The pool is no UTF-8 from a byte on, or has a byte that no text may hold, such as a line feed.",
        why: "Names are printed, compared and sorted; bytes that are no character, or that cannot be seen, would make \
              two names look alike.",
        cure: "Look at the byte that the answer shows. Where a name was typed with it, write the name anew; where no \
               name has it, the file is damaged: copy it again.",
        example: Example::Bytes { file: b"\0\0\0\0\x01\0\0\0\n" },
    },
    Page {
        number: 8,
        means: "The stream has more than 32,768 bytes, or the pool more than 16,384. A length that the file states \
                counts, whether the bytes follow or not.",
        why: "Every reader has room for records up to these limits and for no longer ones.",
        cure: "Mostly the file is no record: the first four bytes of a text read as a huge length. A text becomes a \
               record by `release assemble TEXT > RECORD`. A schema that is longer indeed has to be split.",
        example: Example::Bytes { file: b"\x01\x80\0\0" },
    },
    Page {
        number: 9,
        means: "A field is longer than 4,294,967,295 bytes, or ends behind that byte. The place is that of the \
                `struct`, `family` or `variant` it stands in.",
        why: "Offsets and sizes are exact up to that limit alone; beyond it the check could not say where a field \
              lies.",
        cure: "Look at `count`, `rows`, `cols` and `size` of the fields of that type, and at the size of the enums and \
               bit fields that they name: one of these numbers is wrong.",
        example: Example::Checked {
            current: "head 1.1.0\nstruct tile\n    field gap padding size=4294967295\n    field n scalar type=u8\nend\n",
            released: "head 1.0.0\nend\n",
        },
    },
    Page {
        number: 10,
        means: "The buffer that a program lends to a call is shorter than the text to be written. Nothing is written, \
                and the answer's length is the one that is needed.",
        why: "Half a message or half a list would be taken for the whole.",
        cure: "Lend a buffer of that length and call again. `release` does so itself and never answers 10.",
        example: Example::Room { record: "head 1.0.0\nstruct tile\n    field n scalar type=u16\nend\n", room: 20 },
    },
];
