//! The numbers 55 to 61 of document 02: drafts and their names, pointers, and the pairs of the load.

use super::example::Example;
use super::Page;

const DRAFT: &str = "head 1.1.0\nstruct tile\nend\n";
const RELEASED: &str = "head 1.0.0\nend\n";

pub(super) static PAGES: [Page; 7] = [
    Page {
        number: 55,
        means: "A type is to be added to a draft that has a `struct` or `family` of its name already.",
        why: "Of two types of one name the later would hide the earlier.",
        cure: "Take the old one out first with `release draft remove`, or give the new one another name.",
        example: Example::Added {
            draft: DRAFT,
            addition: "head 1.1.0\nstruct tile\n    field n scalar type=u16\nend\n",
            released: RELEASED,
        },
    },
    Page {
        number: 56,
        means: "A type is to be taken out of a draft that has no `struct` and no `family` of its name.",
        why: "There is nothing to take out, so the name is mistyped or the type is gone already.",
        cure: "Look the name up with `release list DRAFT`; a variant goes with its family alone.",
        example: Example::Removed { draft: DRAFT, name: "plate", released: RELEASED },
    },
    Page {
        number: 57,
        means: "A draft is to be kept under a name that has no byte or more than sixteen, or under a ninth name while \
                eight others are held.",
        why: "There is room for eight names of one to sixteen bytes.",
        cure: "Take a shorter name, or a name that is held already, whose draft is then replaced.",
        example: Example::Set { name: "seventeen-letters", draft: DRAFT },
    },
    Page {
        number: 58,
        means: "A draft is asked for by a name that none is held under; or one of the held places lies outside the \
                lent buffer or over another.",
        why: "No draft can be given back that is certainly the one that was kept.",
        cure: "Use a name that was set before. If it was, the names and places are not those that the last call gave, \
               or something else wrote to them.",
        example: Example::Back { name: "monday", released: RELEASED },
    },
    Page {
        number: 59,
        means: "A `struct_ptr`, `struct_array_ptr`, `struct_ptr_array_ptr` or `tagged_fam_ptr` field names what is \
                neither a `struct` nor a `family` of the record, or names nothing.",
        why: "The pointer leads to a type that nobody describes, mostly one that was dropped or renamed.",
        cure: "Declare the type, correct the name, or take the field out. The two array kinds name by `element`, the \
               others by `type`.",
        example: Example::Pointers {
            record: "head 1.0.0\nstruct scan\n    field tiles struct_ptr type=tile\nend\n",
        },
    },
    Page {
        number: 60,
        means: "A `struct_ptr`, `struct_array_ptr` or `struct_ptr_array_ptr` field names a `family`, or a \
                `tagged_fam_ptr` field a `struct`.",
        why: "A family begins with its discriminant and length and is read otherwise than a struct.",
        cure: "Use `tagged_fam_ptr` for a family and the others for a struct, or correct the name.",
        example: Example::Pointers {
            record: "head 1.0.0\nfamily tile op step len\nstruct scan\n    field tiles struct_ptr type=tile\nend\n",
        },
    },
    Page {
        number: 61,
        means: "A pair of records is asked for with an outcome other than 0, 20, 34, 35, 36 and 43, or with a seed \
                above 2147483647.",
        why: "For these outcomes and seeds alone it is proved that the pair has its outcome.",
        cure: "Ask for one of these, with a seed of at most 2147483647.",
        example: Example::Load { outcome: 37, seed: 7 },
    },
];
