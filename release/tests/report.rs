//! `release report`: one page without outside parts, into which no record can put markup.
mod common;

use common::vectors::pairs;
use common::{run, run_on, top, Folder};

fn example(name: &str) -> String {
    std::fs::read_to_string(top().join("examples").join(name)).expect("an example")
}

/// The tags of a page in their order, without the texts between them.
fn tags(page: &str) -> Vec<&str> {
    page.split('<').skip(1).map(|rest| rest.split('>').next().unwrap_or_default()).collect()
}

fn report(current: &str, released: &str, folder: &Folder) -> String {
    let (current, released) =
        (folder.record("current.rec", current), folder.record("released.rec", released));
    run(&["report", &current, &released]).said(0).to_string()
}

#[test]
fn a_moved_field() {
    let folder = Folder::new("report_moved");
    let page = report(&example("moved.txt"), &example("first.txt"), &folder);
    assert!(page.starts_with("<!DOCTYPE html>\n") && page.ends_with("</html>\n"));
    for part in [
        "<h1>Not accepted: 35 moved</h1>",
        "tile.n was at offset 0 in the last release and is at 1 now",
        "Put all fields of the type back to their old order and sizes.",
        "<h3><bdi>tile</bdi> <small>changed</small></h3>",
        "byte 0 of <bdi>n</bdi>",
        "all of <bdi>exposure</bdi>",
        "<code><bdi>head 1.0.0</bdi></code>",
        "This one is not accepted, so it stands in no chain.",
    ] {
        assert!(page.contains(part), "{part} in {page}");
    }
    assert!(!page.contains("<h3><bdi>scan</bdi>"), "an unchanged type has no map");
}

#[test]
fn an_accepted_record() {
    let folder = Folder::new("report_accepted");
    let page = report(&example("added.txt"), &example("first.txt"), &folder);
    for part in [
        "<h1>Accepted</h1>",
        "as before",
        "Both records are inside the premises of this.",
        "<code><bdi>constant GENERATION 4</bdi></code>",
        "<code><bdi>version scan 4</bdi></code>",
    ] {
        assert!(page.contains(part), "{part} in {page}");
    }
    assert!(!page.contains("class=\"wrong\""), "nothing is read wrongly");
    let odd = "head 1.1.0\nconstant G 1\nstruct scan slot=metadata version=G\nfield x scaler\nend";
    let page = report(odd, &odd.replace("1.1.0", "1.0.0"), &folder);
    assert!(page.contains("<b>kinds</b>: <bdi>field x of scan has the kind scaler, which is none"), "{page}");
    assert!(page.contains("No type of the last release has changed."));
}

/// What a reader that shipped takes: other fields, parts of them, and bytes behind the end.
#[test]
fn what_an_old_reader_takes() {
    let folder = Folder::new("report_taken");
    let old = "head 1.0.0\nstruct t\nfield a scalar type=u16\nfield b scalar type=u32\nfield s string\nfield gap padding size=2\nend";
    let new = "head 1.1.0\nstruct t\nfield z scalar type=u8\nfield a scalar type=u16\nend";
    let page = report(new, old, &folder);
    assert!(
        page.contains("all of <bdi>z</bdi> <small><bdi>scalar u8</bdi></small>, byte 0 of <bdi>a</bdi>"),
        "{page}"
    );
    assert!(
        page.contains("byte 1 of <bdi>a</bdi> <small><bdi>scalar u16</bdi></small>, 3 bytes behind the end"),
        "{page}"
    );
    assert!(page.contains(">no bytes</div>"), "{page}");
    let page = report("head 1.1.0\nend", old, &folder);
    assert!(
        page.contains("<bdi>t</bdi> <small>33 type gone</small>") && page.contains("2 bytes behind the end"),
        "{page}"
    );
}

/// What a verdict is about has its number behind it, not only the first.
#[test]
fn numbers_of_verdicts() {
    let folder = Folder::new("report_numbers");
    let old = "head 1.0.0\nconstant A 1\nconstant B 1\nstruct t\nfield a scalar\nend";
    let new = "head 1.1.0\nconstant A 2\nstruct t\nfield a scalar\nfield b scalar\nend";
    let page = report(new, old, &folder);
    for part in [
        "<code><bdi>constant A 2</bdi></code> <em>21 constant changed</em></td>",
        "<td class=\"none\">- <em>20 constant gone</em></td>",
        "<h3><bdi>t</bdi> <small>changed, 40 uncovered</small></h3>",
    ] {
        assert!(page.contains(part), "{part} in {page}");
    }
}

/// Names that are markup leave the page's tags as they are with harmless names, and nothing is loaded or run.
#[test]
fn no_markup_from_a_record() {
    let folder = Folder::new("report_markup");
    let text = |names: [&str; 8], release: &str, more: &str| {
        let [constant, structure, field, kind, family, variant, value, note] =
            names.map(|name| format!("\"{}\"", name.replace('\\', "\\\\").replace('"', "\\\"")));
        format!(
            "head {release}\nconstant {constant} 1\nconstant N text={note}\nenum e 1\nvalue {value} 1\n\
             struct {structure} slot=metadata version={constant}\n{more}field {field} {kind} type={note}\n\
             field r tagged_fam_ptr type={family}\nfamily {family} {field} e {value}\nvariant {variant}\nfield {field} {kind}\nend"
        )
    };
    let harmless = ["c", "s", "f", "k", "m", "v", "w", "n"];
    let marked = [
        "<script>alert(1)</script>",
        "</style><script>x</script>",
        "<img src=x onerror=alert(1)>",
        "\"><b>",
        "' onmouseover='x `",
        "--><!--",
        "&lt;b&gt;&amp; `code`",
        "`</bdi></code></td><td>",
    ];
    for more in ["", "field new padding size=1\n", "field new scalar type=u8\n", "gone"] {
        let page = |names| {
            let new = text(names, "1.1.0", more.trim_end_matches("gone"));
            let new = if more == "gone" { "head 1.1.0\nend".to_string() } else { new };
            report(&new, &text(names, "1.0.0", ""), &folder)
        };
        let (plain, odd) = (page(harmless), page(marked));
        assert_eq!(tags(&plain), tags(&odd));
        assert!(odd.contains("&lt;/style&gt;&lt;script&gt;x&lt;/script&gt;"), "{odd}");
        for outside in
            ["<script", "<link", "<img", "<iframe", "url(", "@import", "http:", "https:", "javascript:"]
        {
            assert!(!odd.contains(outside), "{outside}");
        }
    }
}

/// The name of a file is no markup either.
#[test]
fn no_markup_from_a_file() {
    let folder = Folder::new("report_file");
    let odd = folder.record("<b>&\"'.rec", "head 1.1.0\nend");
    let page = run(&["report", &odd, &odd]);
    assert!(
        page.said(0).contains("&lt;b&gt;&amp;&quot;&#39;.rec") && !page.text().contains("<b>&"),
        "{}",
        page.text()
    );
}

#[test]
fn damaged_records_and_usage() {
    let folder = Folder::new("report_damaged");
    let good = folder.record("good.rec", "head 1.0.0\nend");
    let empty = folder.file("empty.rec", b"");
    assert!(run(&["report", &empty, &good])
        .complained(2)
        .contains("empty.rec: 1 cut: current record, place 0"));
    assert!(run(&["report", &good, &empty])
        .complained(2)
        .contains("empty.rec: 1 cut: released record, place 0"));
    assert!(run(&["report", &good]).complained(3).contains("expected 2 operands, found 1"));
    assert!(run(&["report", &good, &good, "--json"]).complained(3).contains("there is no option --json"));
}

/// The longest records give a page in good time.
#[test]
fn long_records() {
    let fields: String = (0..900).map(|n| format!("field f{n} scalar type=u8\n")).collect();
    let text = |release: &str, front: &str| format!("head {release}\nstruct t\n{front}{fields}end");
    let both = [common::record(&text("1.1.0", "field x scalar\n")), common::record(&text("1.0.0", ""))];
    let bytes: Vec<u8> = both.iter().flat_map(|parts| parts.to_bytes()).collect();
    let began = std::time::Instant::now();
    let page = run_on(&["report", "-", "-"], &bytes);
    assert_eq!(page.said(0).matches("class=\"wrong\"").count(), 900);
    assert!(began.elapsed().as_secs() < 2, "{:?}", began.elapsed());
}

/// Pairs of the vectors: a page or a refusal, and no tag but those of a page.
#[test]
fn pages_of_the_vectors() {
    let known = [
        "!DOCTYPE", "html", "head", "meta", "title", "style", "body", "main", "div", "h1", "h2", "h3", "p",
        "br", "dl", "dt", "dd", "section", "small", "b", "bdi", "em", "table", "thead", "tbody", "tr", "th",
        "td", "code", "ul", "li", "footer",
    ];
    let mut pages = 0;
    for pair in pairs().iter().step_by(40) {
        let ran = run_on(&["report", "-", "-"], &pair.bytes());
        if (1..=9).contains(&pair.answer.number) {
            ran.complained(2);
            continue;
        }
        for tag in tags(ran.said(0)) {
            let name = tag.trim_start_matches('/').split([' ', '\n']).next().unwrap_or_default();
            assert!(known.contains(&name), "{tag}");
        }
        pages += 1;
    }
    assert!(pages > 50, "{pages}");
}
