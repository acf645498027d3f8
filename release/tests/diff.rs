//! `release diff`: what two records differ in.
mod common;

use common::{run, run_on, Folder};

const OLD: &str =
    "head 1.0.0\nstruct same\nfield a scalar\nstruct old\nstruct tile\nfield n scalar type=u16\n\
                   field skip scalar type=u8\nfield kind scalar type=u8\nfield gap padding size=2\n\
                   field last scalar type=u8\nend";
const NEW: &str = "head 1.1.0\nstruct same\nfield a scalar\nstruct fresh\nfield b cstr_ptr\nstruct tile\n\
                   field front scalar\nfield n scalar type=u32\nfield kind inline_array element=u8 count=1\n\
                   field gap padding size=1\nfield last scalar type=u8\nend";

fn files(name: &str, new: &str, old: &str) -> (String, String) {
    let folder = Folder::new(name);
    (folder.record("new.rec", new), folder.record("old.rec", old))
}

/// What is printed of two records, with these options.
fn page(name: &str, new: &str, old: &str, options: &[&str]) -> String {
    let (new, old) = files(name, new, old);
    let ran = run(&[&["diff", &new, &old], options].concat());
    assert!(ran.said(0).lines().all(|line| line.trim_end() == line), "{}", ran.text());
    ran.text().to_string()
}

/// Every mark of a field, and the bytes of a changed type.
#[test]
fn layouts() {
    let expected = "
         released  current
release  1.0.0     1.1.0    changed

           released                  current
           offset  size  type        offset  size  type
fresh: new, 40 uncovered
    b           -                         0     4  cstr_ptr             new
old: 33 type gone, without fields
tile: changed, 40 uncovered
    front       -                         0     1  scalar               new
    n           0     2  scalar u16       1     4  scalar u32           35 moved, 36 resized, 37 redescribed
    skip        2     1  scalar u8        -                             34 field gone
    kind        3     1  scalar u8        5     1  inline_array u8 x 1  35 moved, 37 redescribed
    gap         4     2  padding          6     1  padding              moved, resized
    last        6     1  scalar u8        7     1  scalar u8            35 moved
    byte  stood there      stands there now
    0     n[0] scalar u16  front scalar
    1     n[1] scalar u16  n[0] scalar u32
    2     skip scalar u8   n[1] scalar u32
    3     kind scalar u8   n[2] scalar u32
    4     gap[0] padding   n[3] scalar u32
    5     gap[1] padding   kind inline_array u8 x 1
    6     last scalar u8   gap padding
    7     -                last scalar u8
";
    assert_eq!(page("diff_layouts", NEW, OLD, &[]), expected[1..]);
}

/// Without --all what is the same is left out, and folded among the bytes.
#[test]
fn what_is_the_same() {
    let old =
        "head 1.0.0\nconstant A 1\nenum e 1\nvalue X 0\nvalue Y 1\nstruct same\nfield a scalar\nstruct t\n\
               field a scalar\nfield b scalar\nfield c scalar\nfield d padding size=2\nend";
    let new =
        "head 1.0.0\nconstant A 1\nenum e 1\nvalue X 0\nvalue Y 2\nstruct same\nfield a scalar\nstruct t\n\
               field a scalar\nfield b scalar\nfield c scalar\nfield d scalar\nend";
    let changes = "
             released  current
release      1.0.0     1.0.0    15 not later
enum e
    value Y  1         2        23 renumbered

       released               current
       offset  size  type     offset  size  type
t: changed, 40 uncovered, 3 fields as before
    d       3     2  padding       3     1  scalar  resized, redescribed
    byte  stood there   stands there now
    0-2   3 fields      as before
    3     d[0] padding  d scalar
    4     d[1] padding  -
";
    assert_eq!(page("diff_same", new, old, &[]), changes[1..]);
    let all = "
             released  current
release      1.0.0     1.0.0    15 not later
constant A   1         1
enum e       1         1
    value X  0         0
    value Y  1         2        23 renumbered
struct same  no slot   no slot
struct t     no slot   no slot

       released               current
       offset  size  type     offset  size  type
same: same
    a       0     1  scalar        0     1  scalar
t: changed, 40 uncovered
    a       0     1  scalar        0     1  scalar
    b       1     1  scalar        1     1  scalar
    c       2     1  scalar        2     1  scalar
    d       3     2  padding       3     1  scalar  resized, redescribed
    byte  stood there   stands there now
    0     a scalar      as before
    1     b scalar      as before
    2     c scalar      as before
    3     d[0] padding  d scalar
    4     d[1] padding  -
";
    assert_eq!(page("diff_all", new, old, &["--all"]), all[1..]);
}

/// Each sort of declaration, with the verdicts on it.
#[test]
fn declarations() {
    let old = "head 1.0.0\nconstant A 1 api since=1.0.0\nconstant G 3\nconstant T text=\"a b\"\nalias unit u8\n\
               enum e 1 api since=1.0.0\nvalue X 0\nvalue Y 1\nenum gone 2\nvalue Z 5\n\
               bitfield b 1 since=1.0.0\nmember m 0\nmember n 1 width=2\n\
               struct scan slot=metadata version=G\nfield a scalar\nkey scan.a since=0.9.0\n\
               family fam k e l standalone\nvariant X\nfield x scalar\nkey fam.x since=1.0.0\nversion scan 3\nend";
    let new = "head 1.1.0\nconstant A 1 api since=1.1.0\nconstant G 5\nalias unit u16\n\
               enum e 1 api since=1.0.0\nvalue X 0\nvalue W 1\nvalue V 2\n\
               bitfield b 1 since=1.0.0\nmember m 4\nmember n 1\nmember o 7 since=1.1.0\n\
               struct scan slot=metadata version=G\nfield a scalar\nkey scan.a since=1.0.0\n\
               family fam k e l\nvariant X\nfield x scalar\nkey fam.x since=1.1.0\nunstored_key new since=1.0.0\nversion scan 4\nend";
    let expected = "\
                        released                    current
release                 1.0.0                       1.1.0              changed
constant A              1 api since=1.0.0           1 api since=1.1.0  18 redated
constant G              3                           5                  changed
constant T              text=\"a b\"                  -                  20 constant gone
alias unit              u8                          u16                changed
enum e
    value Y             1                           -                  24 renamed
    value W             -                           1                  new, 16 value undated
    value V             -                           2                  new, 16 value undated
enum gone               2                           -                  22 enum gone
    value Z             5                           -                  gone
bitfield b
    member m            0                           4                  29 bit moved
    member n            1 width=2                   1                  30 width changed
    member o            -                           7 since=1.1.0      new
struct scan
    key scan.a          since=0.9.0                 since=1.0.0        18 redated
family fam              k e l standalone            k e l              38 standing changed
family fam, variant X
    key fam.x           since=1.0.0                 since=1.1.0        changed
unstored_key new        -                           since=1.0.0        new, 17 late
version scan 3          declared                    -                  gone
version scan 4          -                           declared           new
generation metadata     scan G 3                    scan G 5           45 leapt
";
    let squeezed = |text: &str| -> Vec<Vec<String>> {
        let cells = |line: &str| {
            line.split("  ").map(str::trim).filter(|cell| !cell.is_empty()).map(String::from).collect()
        };
        text.lines().map(cells).collect()
    };
    assert_eq!(squeezed(&page("diff_declarations", new, old, &[])), squeezed(expected));
}

/// A generation that stays is about its slot and about each changed type under it; one without a constant about its slot.
#[test]
fn generations() {
    let text = |release: &str, more: &str, constant: &str| {
        format!(
            "head {release}\nconstant G 3\nstruct scan slot=metadata version=G\nfield t struct_ptr type=tile\n\
             struct tile\nfield n scalar\n{more}struct other slot=info{constant}\nend"
        )
    };
    let page = page(
        "diff_generations",
        &text("1.1.0", "field m scalar\n", ""),
        &text("1.0.0", "", " version=G"),
        &[],
    );
    for line in [
        "struct other         slot=info version=G  slot=info                changed",
        "generation info      other G 3            other names no constant  41 no constant",
        "generation metadata  scan G 3             scan G 3                 43 unraised",
        "tile: changed, 43 unraised, 1 field as before",
    ] {
        assert!(page.lines().any(|shown| shown == line), "{line} in\n{page}");
    }
}

/// Long types are folded, and --all shows every byte; no line of bytes is over eighty characters.
#[test]
fn long_types() {
    let fields: String =
        (0..300).map(|n| format!("field field_with_a_rather_long_name_{n} scalar type=u16\n")).collect();
    let text = |release: &str, front: &str| format!("head {release}\nstruct t\n{front}{fields}end");
    let (new, old) = (text("1.1.0", "field x scalar\n"), text("1.0.0", ""));
    let strip = |options: &[&str]| -> Vec<String> {
        let page = page("diff_long", &new, &old, options);
        page.lines().skip_while(|line| !line.starts_with("    byte ")).map(String::from).collect()
    };
    let folded = strip(&[]);
    assert_eq!(folded.len(), 17);
    assert_eq!(folded[16], "    .. 586 more lines; --all shows them");
    let whole = strip(&["--all"]);
    assert_eq!(whole.len(), 602);
    assert_eq!(whole[1], "    0     field_with_a_rather_long_..[0]  x scalar");
    assert!(whole.iter().all(|line| line.len() <= 80), "{whole:?}");
}

#[test]
fn json() {
    let (new, old) = files(
        "diff_json",
        "head 1.1.0\nconstant G 4\nstruct t slot=info version=G\nfield b scalar\nfield a scalar\nend",
        "head 1.0.0\nconstant G 3\nstruct t slot=info version=G\nfield a scalar\nfield c padding size=1\nend",
    );
    let expected = "{\"refusal\":null,\"types\":[{\"name\":\"t\",\"state\":\"changed\",\"numbers\":[],\"fields\":[\
        {\"name\":\"b\",\"marks\":[\"new\"],\"numbers\":[],\"released\":null,\"current\":{\"offset\":0,\"size\":1,\"description\":\"scalar\"}},\
        {\"name\":\"a\",\"marks\":[\"moved\"],\"numbers\":[35],\"released\":{\"offset\":0,\"size\":1,\"description\":\"scalar\"},\
        \"current\":{\"offset\":1,\"size\":1,\"description\":\"scalar\"}},\
        {\"name\":\"c\",\"marks\":[\"gone\"],\"numbers\":[],\"released\":{\"offset\":1,\"size\":1,\"description\":\"padding\"},\
        \"current\":null}],\"bytes\":[\
        {\"from\":0,\"to\":1,\"released\":{\"field\":\"a\",\"from\":0},\"current\":{\"field\":\"b\",\"from\":0}},\
        {\"from\":1,\"to\":2,\"released\":{\"field\":\"c\",\"from\":0},\"current\":{\"field\":\"a\",\"from\":0}}]}],\
        \"declarations\":[\
        {\"command\":\"head\",\"in\":null,\"name\":null,\"state\":\"changed\",\"numbers\":[],\"released\":\"head 1.0.0\",\"current\":\"head 1.1.0\"},\
        {\"command\":\"constant\",\"in\":null,\"name\":\"G\",\"state\":\"changed\",\"numbers\":[],\"released\":\"constant G 3\",\"current\":\"constant G 4\"},\
        {\"command\":\"struct\",\"in\":null,\"name\":\"t\",\"state\":\"same\",\"numbers\":[],\
        \"released\":\"struct t slot=info version=G\",\"current\":\"struct t slot=info version=G\"}],\
        \"generations\":[{\"slot\":\"info\",\"state\":\"changed\",\"numbers\":[44],\
        \"released\":{\"structure\":\"t\",\"constant\":\"G\",\"number\":3},\"current\":{\"structure\":\"t\",\"constant\":\"G\",\"number\":4}}]}\n";
    assert_eq!(run(&["diff", &new, &old, "--json"]).said(0), expected);
    assert_eq!(run(&["diff", "--all", &new, &old, "--json"]).said(0), expected);
}

/// The lines of the layouts without their heads and their blanks.
fn lines(new: &str, old: &str, name: &str) -> Vec<String> {
    let page = page(name, new, old, &["--all"]);
    let words = |line: &str| line.split_whitespace().collect::<Vec<_>>().join(" ");
    page.lines().map(words).skip_while(|line| !line.starts_with("offset ")).skip(1).collect()
}

/// Types are equal only in the order of their fields, though no field is marked.
#[test]
fn order_alone() {
    let old = "head 1.0.0\nstruct t\nfield a string\nfield b string\nend";
    let new = "head 1.1.0\nstruct t\nfield b string\nfield a string\nend";
    let expected = [
        "t: changed, 40 uncovered, in the order or number of its fields alone",
        "a 0 0 string 0 0 string",
        "b 0 0 string 0 0 string",
    ];
    assert_eq!(lines(new, old, "diff_order"), expected);
}

/// The check compares a released field with the first current one of its name.
#[test]
fn two_fields_of_one_name() {
    let old = "head 1.0.0\nstruct t\nfield a scalar\nfield a scalar\nend";
    let new = "head 1.1.0\nstruct t\nfield a scalar\nfield a scalar\nend";
    let expected =
        ["t: same", "a 0 1 scalar 0 1 scalar", "a 1 1 scalar 0 1 scalar 35 moved", "a - 1 1 scalar new"];
    assert_eq!(lines(new, old, "diff_twice"), expected);
    // The verdict is shown without being asked for all.
    assert!(page("diff_twice", new, old, &[]).contains("35 moved\n"));
}

/// A kind that reads like padding but is none: the types differ, and no description does.
#[test]
fn padding_that_reads_the_same() {
    let none = "head 1.0.0\nstruct t\nfield a \"padding u8\"\nend";
    let pads = "head 1.1.0\nstruct t\nfield a padding type=u8\nend";
    let expected = ["t: changed, 40 uncovered", "a 0 0 padding u8 0 0 padding u8 now padding"];
    assert_eq!(lines(pads, none, "diff_padding"), expected);
    let expected = ["t: changed, 40 uncovered", "a 0 0 padding u8 0 0 padding u8 no longer padding"];
    let (none, pads) = (none.replace("1.0.0", "1.1.0"), pads.replace("1.1.0", "1.0.0"));
    assert_eq!(lines(&none, &pads, "diff_unpadding"), expected);
}

#[test]
fn nothing_on_either_side() {
    let (new, old) = ("head 1.1.0\nend", "head\nend");
    assert_eq!(
        page("diff_nothing", new, old, &[]),
        "         released    current\nrelease  no release  1.1.0    changed\n"
    );
    let unreleased = "head 1.1.0 unreleased\nstruct t\nend";
    assert_eq!(
        page("diff_unreleased", unreleased, unreleased, &[]),
        "         released          current\nrelease  1.1.0 unreleased  1.1.0 unreleased  11 described\n"
    );
    let unreleased = "head 1.1.0 unreleased\nend";
    assert_eq!(page("diff_none", unreleased, unreleased, &[]), "nothing differs that the check looks at\n");
}

#[test]
fn damaged_records() {
    let folder = Folder::new("diff_damaged");
    let good = folder.record("good.rec", "head 1.0.0\nend");
    let unnamed = folder.record("unnamed.rec", "head\nend");
    assert!(run(&["diff", &unnamed, &good]).complained(2).contains(": 5 missing: current record, place 0"));
    assert!(run(&["diff", &good, &unnamed]).said(0).contains("release  no release  1.0.0 "));
    let ran = run_on(&["diff", &good, "-", "--json"], b"");
    assert_eq!(ran.status, 2);
    let front = "{\"refusal\":{\"accepted\":false,\"number\":1,\"word\":\"cut\",\"message\":null,\"side\":\"released\"";
    assert!(ran.text().starts_with(front) && ran.text().ends_with(",\"types\":null}\n"), "{}", ran.text());
}

#[test]
fn usage_and_files() {
    assert!(run(&["diff", "a"]).complained(3).contains("expected 2 operands, found 1"));
    assert!(run(&["diff", "missing.rec", "b"]).complained(3).contains("cannot read missing.rec"));
    assert!(run(&["diff", "a", "b", "-x"]).complained(3).contains("there is no option -x"));
}
