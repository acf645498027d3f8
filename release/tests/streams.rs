//! Closed pipes, full devices, and bytes that mean nothing, to every command.
mod common;

use std::fs::File;
use std::io::{pipe, BufRead, BufReader, Write};
use std::process::Stdio;

use common::vectors::records;
use common::{command, record, run_on, top, Drawn, Folder};
use menqachu::record::layout::layouts;
use menqachu::record::parts::Parts;
use menqachu::record::room::list_whole;
use menqachu::record::Problem;
use menqachu::text::{assemble, show};
use menqachu::Side;

const TEXT: &str = "head 1.0.0\nconstant G 1\nstruct s slot=info version=G\nstruct t\nfield n scalar\nend\n";

/// Every command with its options, where `FILE` is a record and `TEXT` a text; and the status it has.
fn calls() -> Vec<(Vec<&'static str>, i32)> {
    let lines = [
        ("check FILE FILE", 1),
        ("check FILE FILE --json", 1),
        ("chain FILE FILE", 1),
        ("chain FILE FILE --json", 1),
        ("list FILE", 0),
        ("list FILE --released", 0),
        ("list FILE --json", 0),
        ("owner FILE s", 0),
        ("owner FILE s --json", 0),
        ("owner FILE t --json", 1),
        ("diff FILE FILE", 0),
        ("diff FILE FILE --all", 0),
        ("diff FILE FILE --json", 0),
        ("report FILE FILE", 0),
        ("lint FILE", 1),
        ("lint FILE --json", 1),
        ("explain", 0),
        ("explain 35", 0),
        ("explain 35 --json", 0),
        ("assemble TEXT", 0),
        ("show FILE", 0),
        ("--help", 0),
        ("--version", 0),
        ("show --help", 0),
        ("help show", 0),
        ("completions", 0),
    ];
    lines.into_iter().map(|(line, status)| (line.split(' ').collect(), status)).collect()
}

fn filled(call: &[&str], record: &str, text: &str) -> Vec<String> {
    call.iter().map(|word| word.replace("FILE", record).replace("TEXT", text)).collect()
}

fn files(name: &str) -> (String, String) {
    let folder = Folder::new(name);
    (folder.record("r.rec", TEXT), folder.file("t.txt", TEXT.as_bytes()))
}

/// A reader that has gone away is no error: the status is the answer's, and standard error is empty.
#[test]
fn closed_pipe() {
    let (record, text) = files("closed_pipe");
    for (call, status) in calls() {
        let (reader, writer) = pipe().expect("a pipe");
        drop(reader);
        let child =
            command().args(filled(&call, &record, &text)).stdout(writer).stderr(Stdio::piped()).spawn();
        let output = child.and_then(|child| child.wait_with_output()).expect("the command ends");
        assert_eq!((output.status.code(), &output.stderr[..]), (Some(status), &b""[..]), "{call:?}");
    }
}

/// A reader that goes away in the middle of a long list.
#[test]
fn pipe_closed_in_the_middle() {
    let long = top().join("cases/layout_list/one_byte_more.in");
    for options in [&[][..], &["--json"]] {
        let mut child =
            command().arg("list").arg(&long).args(options).stdout(Stdio::piped()).spawn().expect("starts");
        drop(child.stdout.take());
        assert_eq!(child.wait().expect("ends").code(), Some(0));
    }
}

/// A burn-in over all seeds ends without a word when nobody reads its lines any more, and does not say that each pair had its outcome.
#[test]
fn burn_in_that_nobody_reads() {
    let mut burn_in = command();
    burn_in.args(["burn-in", "--seeds", "0..2147483648"]).stdout(Stdio::piped()).stderr(Stdio::piped());
    let mut child = burn_in.spawn().expect("the command starts");
    let mut first = String::new();
    let mut lines = BufReader::new(child.stdout.take().expect("a pipe"));
    lines.read_line(&mut first).expect("a line");
    assert!(first.starts_with("1000 seeds, 6000 pairs, "), "{first}");
    drop(lines);
    let output = child.wait_with_output().expect("the command ends");
    assert_eq!((output.status.code(), &output.stderr[..]), (Some(3), &b""[..]));
}

#[test]
fn full_device() {
    let (record, text) = files("full_device");
    for (call, _) in calls() {
        let full = File::options().write(true).open("/dev/full").expect("the device");
        let output =
            command().args(filled(&call, &record, &text)).stdout(full).output().expect("the command ends");
        let error = String::from_utf8_lossy(&output.stderr);
        assert_eq!(output.status.code(), Some(3), "{call:?}");
        assert!(error.starts_with("release: cannot write to standard output: "), "{call:?}: {error}");
    }
}

/// Where standard error is closed too, the status is all that is left.
#[test]
fn closed_standard_error() {
    for call in [&["check"][..], &["nothing"], &["list", "missing.rec"], &[]] {
        let (reader, writer) = pipe().expect("a pipe");
        drop(reader);
        let status = command().args(call).stderr(writer).status().expect("the command ends");
        assert_eq!(status.code(), Some(3), "{call:?}");
    }
}

/// Standard input that never ends: a record ends by its lengths, and a text has its limit.
#[test]
fn endless_input() {
    let endless = || File::open("/dev/zero").expect("the device");
    let ran = command().args(["list", "-"]).stdin(endless()).output().expect("the command ends");
    assert_eq!(ran.status.code(), Some(2));
    let ran = command().args(["assemble", "-"]).stdin(endless()).output().expect("the command ends");
    assert_eq!(ran.status.code(), Some(3));
}

/// A length above its limit is refused although the bytes that it states never come.
#[test]
fn a_length_without_its_bytes() {
    let good = Folder::new("length_alone").record("good.rec", TEXT);
    for call in [&["list", "-"][..], &["check", "-", &good], &["check", &good, "-"], &["show", "-"]] {
        let mut child = command()
            .args(call)
            .stdin(Stdio::piped())
            .stdout(Stdio::piped())
            .stderr(Stdio::piped())
            .spawn()
            .expect("starts");
        let mut pipe = child.stdin.take().expect("a pipe");
        pipe.write_all(&0xFFFF_FFF0_u32.to_le_bytes()).and_then(|()| pipe.flush()).expect("four bytes");
        // The pipe stays open: a command that waits for more would never end.
        let output = child.wait_with_output().expect("ends");
        drop(pipe);
        let said = [output.stdout, output.stderr].concat();
        assert_eq!(output.status.code(), Some(2), "{call:?}");
        assert!(String::from_utf8_lossy(&said).contains("8 long: "), "{call:?}");
    }
}

/// A file of drawn bytes, of a damaged record, or of a damaged text.
fn drawn_input(drawn: &mut Drawn, records: &[Parts]) -> Vec<u8> {
    let whole = |drawn: &mut Drawn| records[drawn.below(records.len())].to_bytes();
    let length = drawn.below(200);
    match drawn.below(4) {
        0 => drawn.bytes(length),
        1 => {
            let bytes = drawn.bytes(length);
            Parts { stream: bytes[..length / 2].to_vec(), pool: bytes[length / 2..].to_vec() }.to_bytes()
        }
        2 => {
            let bytes = whole(drawn);
            damaged(bytes, drawn)
        }
        _ => {
            let text = Parts::read(&mut &whole(drawn)[..]).ok().and_then(|parts| show(parts.record()).ok());
            damaged(text.unwrap_or_default().into_bytes(), drawn)
        }
    }
}

/// The bytes with some changed, and perhaps the end cut off.
fn damaged(mut bytes: Vec<u8>, drawn: &mut Drawn) -> Vec<u8> {
    for _ in 0..drawn.below(4) {
        let at = drawn.below(bytes.len());
        if let Some(byte) = bytes.get_mut(at) {
            *byte = drawn.next() as u8;
        }
    }
    if drawn.below(3) == 0 {
        bytes.truncate(drawn.below(bytes.len() + 1));
    }
    bytes
}

fn small(records: Vec<Parts>) -> Vec<Parts> {
    records.into_iter().filter(|record| record.stream.len() + record.pool.len() < 4000).collect()
}

/// The statuses that a command may have where its files can be read.
fn allowed(name: &str) -> &'static [i32] {
    match name {
        "check" | "chain" | "owner" | "lint" => &[0, 1, 2],
        _ => &[0, 2],
    }
}

#[test]
fn drawn_bytes_to_every_command() {
    let folder = Folder::new("drawn_bytes");
    let records = small(records());
    let good = folder.record("good.rec", TEXT);
    let mut drawn = Drawn(0x5EED);
    for round in 0..25 {
        let input = drawn_input(&mut drawn, &records);
        let file = folder.file("drawn", &input);
        for (call, _) in calls() {
            for call in [filled(&call, "-", "-"), filled(&call, &file, &file)] {
                let ran = run_on(&call, &[&input[..], &input].concat());
                assert!(allowed(&call[0]).contains(&ran.status), "round {round}: {call:?}: {}", ran.status);
                assert!(!ran.err.contains("panicked"), "{}", ran.err);
            }
        }
        for call in [
            ["check", &good, &file],
            ["check", &file, &good],
            ["chain", &good, &file],
            ["diff", &file, &good],
            ["report", &file, &good],
            ["report", &good, &file],
        ] {
            let ran = run_on(&call, b"");
            assert!(allowed(call[0]).contains(&ran.status), "round {round}: {call:?}: {}", ran.status);
        }
    }
}

/// The same without a process a call, and so many more.
#[test]
fn drawn_bytes_to_the_functions() {
    let records = small(records());
    let mut drawn = Drawn(0xB17E5);
    let mut taken = [0; 3];
    for _ in 0..20_000 {
        let input = drawn_input(&mut drawn, &records);
        match assemble(&input) {
            // Whatever can be assembled can be read as released, save for its sizes.
            Ok(parts) => {
                assert!(matches!(list_whole(parts.record(), Side::Released).0.number, 0 | 9));
                taken[0] += 1;
            }
            Err(fault) => assert!(fault.line <= 1 + input.iter().filter(|byte| **byte == b'\n').count()),
        }
        let parts = Parts::read(&mut &input[..]).expect("a slice can be read");
        let refused = |problem| assert!(matches!(problem, Problem::Refused(_)), "{problem:?}");
        match show(parts.record()) {
            Ok(text) => {
                let again = assemble(text.as_bytes()).expect("what is shown can be assembled");
                assert_eq!(show(again.record()), Ok(text));
                taken[1] += 1;
            }
            Err(problem) => refused(problem),
        }
        for side in [Side::Current, Side::Released] {
            match layouts(parts.record(), side) {
                Ok(_) => taken[2] += 1,
                Err(problem) => refused(problem),
            }
        }
    }
    assert!(taken.iter().all(|count| *count > 500), "{taken:?}");
}

/// The walk over the list fits every record of the vectors, as either side.
#[test]
fn the_list_fits_every_record_of_the_vectors() {
    let mut count = 0;
    for record in records() {
        for side in [Side::Current, Side::Released] {
            match layouts(record.record(), side) {
                Ok(_) => count += 1,
                Err(problem) => assert!(matches!(problem, Problem::Refused(_)), "{problem:?}"),
            }
        }
    }
    assert!(count > 8000, "{count}");
}

/// Input that comes in pieces, as a slow writer sends it.
#[test]
fn input_in_pieces() {
    let bytes = record(TEXT).to_bytes();
    let mut child =
        command().args(["list", "-"]).stdin(Stdio::piped()).stdout(Stdio::piped()).spawn().expect("starts");
    let mut pipe = child.stdin.take().expect("a pipe");
    for piece in bytes.chunks(3) {
        pipe.write_all(piece).and_then(|()| pipe.flush()).expect("a piece");
        std::thread::sleep(std::time::Duration::from_millis(1));
    }
    drop(pipe);
    assert_eq!(child.wait_with_output().expect("ends").stdout, b"t.n 0 1 scalar\n");
}
