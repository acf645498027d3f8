//! The help texts. Each begins with its usage.

/// The usage line of a help text.
pub fn usage(help: &str) -> &str {
    help.lines().next().unwrap_or_default()
}

pub const COMMANDS: &str = "\
the commands are check, chain, list, owner, pointers, diff, report, draft, shelf,
reordered, lint, explain, assemble, show, load, burn-in, help and completions
`release --help` says what each does";

pub const WHOLE: &str = "\
usage: release COMMAND ..

Checks the record of a scan-record schema against the record of the last release.

  release check CURRENT RELEASED [--json]    whether CURRENT may ship after RELEASED
  release chain FIRST OFFERED.. [--json]     each offered record after the last accepted
  release list RECORD [--released] [--json]  where every field lies
  release owner RECORD NAME [--json]         which versioned structure a name belongs to
  release pointers RECORD [--json]           whether every pointer names what it must
  release diff CURRENT RELEASED [--all] [--json]  what they differ in, with the verdicts
  release report CURRENT RELEASED > PAGE     the verdict and all changes for a browser
  release draft EDIT DRAFT .. [--json]       a type added, taken out, or changes counted
  release shelf CALL SHELF .. [--json]       drafts left under names, and taken back
  release reordered ONE OTHER [--json]       whether only the order of sections differs
  release lint RECORD [--json]               what is proved of chains, and what not
  release explain [NUMBER] [--json]          what a number means and what to do
  release assemble TEXT > RECORD             a record from its text form
  release show RECORD                        the text form of a record
  release load OUTCOME SEED > PAIR           a pair of records with a wanted outcome
  release burn-in --seeds A..B [--outcome N] [--json]  the pairs of many seeds, checked
  release help [COMMAND]                     this text, or more about a command
  release completions                        completions for bash
  release --version                          the version, and that of the proved library

A record file holds the command stream and then the text pool, each as a length of
four bytes (little-endian) and its bytes. Where a record is asked for, its text form
(`release help assemble`) does as well. A file of four bytes or more is taken as a text
if all its bytes are text: UTF-8 without control characters other than tabs and the ends
of lines. Any other file is a record, also a text with one byte that is none.

  --record   take every file as a record, whatever its bytes
  --text     take every file as a text

- in place of a file is standard input; where it is given more than once, the records
follow each other there, and a text goes up to its end. Words after -- are operands,
also if they begin with a dash.

Exit status:
  0  accepted, or done
  1  a verdict (check), an offered record dropped (chain), a name that nobody owns
     (owner), a pointer that does not name what it must (pointers), records of which it
     is not proved that they are accepted alike (reordered), a record outside the
     premises or with a remark (lint), or a pair whose check gives another number than
     its outcome (burn-in)
  2  a damaged record or shelf, or a text that is wrong: standard error has the file, the
     line and the column, what was expected there, and the line itself
  3  a usage error, a file that cannot be read or written, an edit that cannot be made
     (draft), or a name that cannot be set or is not held (shelf)
";

pub const CHECK: &str = "\
usage: release check CURRENT RELEASED [--json]

Checks the record about to ship against the record of the last release and prints
one line: `accepted`; or the verdict's number, word and message; or, for a damaged
record, the refusal's number, word, side and place, and the command at that place.
After a verdict a line with a hint says what to do: the lines of the text form to
change where that is plain, and else what `release explain NUMBER` says.

What is proved of a chain of accepted records has premises. Where an accepted record
is outside one, a note follows, with the first place and how many more there are;
`release lint` tells them of one record. The exit status does not change by it.

  --json  an object with the keys accepted, number, word, message (of a verdict),
          side, part, place, byte and command (of a refusal); what does not apply
          is null; hint (of a verdict); and premises, a list of objects with
          premise, record, words (of document 01) and what
  --record, --text  how every file is taken; else its bytes tell (`release help`)

Exit status: 0 accepted, 1 a verdict, 2 a damaged record, 3 a usage or file error.
";

pub const CHAIN: &str = "\
usage: release chain FIRST OFFERED.. [--json]

Checks each offered record against the last accepted one, where FIRST counts as
accepted, and prints a line for each. A record that is not accepted is dropped, and
the next one is checked against the same record again. Notes follow as those of
check, over FIRST and all accepted records. Where standard error is a terminal a bar
there says how far a long chain is.

  --json  an object with the keys first, refusal (of FIRST), offered (a list of
          objects with file, against and answer, which has the keys of check up to
          command), last, the file of the last accepted record, and premises
  --record, --text  how every file is taken; else its bytes tell (`release help`)

Exit status: 0 all are accepted, 1 one is dropped, 2 FIRST cannot be read as a
released record, 3 a usage or file error.
";

pub const LIST: &str = "\
usage: release list RECORD [--released] [--json]

Prints the layouts of a record, a line for each field:

  type.field offset size description

Types come in byte order of their names, fields in record order. A type without
fields has no line.

  --released  read the record as the last release's, in which some texts may be
              absent, and not as the current one
  --json      an object with the keys refusal and types, a list of objects with
              name and fields, a list of objects with name, offset, size and
              description; a type without fields has an empty list
  --record, --text  how every file is taken; else its bytes tell (`release help`)

Exit status: 0 listed, 2 a damaged record, 3 a usage or file error.
";

pub const OWNER: &str = "\
usage: release owner RECORD NAME [--json]

Prints the name of the versioned structure that NAME belongs to, which is the first
of the structures in the slots metadata, runtime and info whose references lead to
it. Where it belongs to nobody, nothing is printed but a line on standard error. The
record is read as a current one.

  --json  an object with the keys refusal and owner, which is null for nobody
  --record, --text  how every file is taken; else its bytes tell (`release help`)

Exit status: 0 an owner, 1 nobody, 2 a damaged record, 3 a usage or file error.
";

pub const POINTERS: &str = "\
usage: release pointers RECORD [--json]

Checks the pointers of a record about to ship: a struct_ptr, struct_array_ptr or
struct_ptr_array_ptr names a declared structure, a tagged_fam_ptr a declared family.
Other kinds are not judged. Prints `accepted`, or for the first field that breaks
this the number, its word, the place, the type, the field, its kind and its name:

  59  neither a structure nor a family, or there is no name
  60  only the other of the two

  --json  an object with the keys refusal and broken, which is null where every
          pointer is right, and else has number, word, place, type, field, kind and
          name, which is null where there is none
  --record, --text  how every file is taken; else its bytes tell (`release help`)

Exit status: 0 accepted, 1 a pointer breaks the rule, 2 a damaged record, 3 a usage
or file error.
";

pub const DIFF: &str = "\
usage: release diff CURRENT RELEASED [--all] [--json]

Prints what the two records differ in, over all that the check looks at: the releases,
constants, aliases, enums with their values, bit fields with their members, slots,
families, plugin keys and version entries, each as its line of the text form has it
behind the name; the generation in each slot; and the layouts type by type. A field has
its offset, size and type on each side. A released field stands beside the first
current field of its name, which is the one that the check compares it with. Padding is
marked too, although the check lets it change under a raised generation.

What a verdict of the check is about has the verdict's number and word behind it, and
not only the first, which is the check's answer: each that the check would give if none
came before it. Other changes are new, gone or changed, and fields also moved, resized
or redescribed. `release explain NUMBER` says more of a verdict.

Below each changed type its bytes follow: what stood in each, and what stands there now.
n[1] is the byte 1 of the field n, counted from 0. Long types are folded.

Where standard output is a terminal it has colours, unless NO_COLOR is set.

  --all   what is the same too, and every byte
  --json  an object with the keys refusal, types, declarations and generations, with
          what is the same too. Of types: a list of objects with name, state, numbers
          (of verdicts), fields, a list of objects with name, marks, numbers, released
          and current, of which each is null or has offset, size and description; and
          bytes, of a changed type a list of objects with from, to (not among them),
          released and current, each null or an object with field and from. Of
          declarations: a list of objects with command, in (the line that it stands
          in, or null), name, state, numbers, released and current, its lines or null.
          Of generations: a list of objects with slot, state, numbers, released and
          current, each null or an object with structure, constant and number
  --record, --text  how every file is taken; else its bytes tell (`release help`)

Exit status: 0 shown, also for a verdict; 2 a damaged record, 3 a usage or file error.
";

pub const REPORT: &str = "\
usage: release report CURRENT RELEASED > PAGE

Writes a page for a browser, in one file that loads nothing: the verdict in words with
what to do about it; for every type that changed a map of its bytes, with what a
reader built for the last release would take from the new ones; all differences, line
by line of the text form; and where the two records are outside the premises of what
is proved of chains.

  --record, --text  how every file is taken; else its bytes tell (`release help`)

Exit status: 0 written, also for a verdict; 2 a damaged record, 3 a usage or file
error.
";

pub const DRAFT: &str = "\
usage: release draft EDIT DRAFT .. [--json]

  release draft add DRAFT ADDITION RELEASED    adds the type of ADDITION
  release draft remove DRAFT NAME RELEASED     takes the first type of a name out
  release draft count DRAFT RELEASED           counts only

Edits the record in the file DRAFT, read as a current one, and prints `changed` and
the number of layouts that differ from those of RELEASED: unequal, or in one of the
two alone. ADDITION is a record of a head, one structure or family with its parts,
and the end; the type is put at the draft's end. A type is taken out with all its
parts. All other commands stay as they are, and texts that none of them uses are
dropped. The file is written beside the draft and then takes its place; where an edit
is refused, the draft is not touched.

A draft that is a text stays one: the lines of the type are put in front of `end`, or
taken out, and all others stay as they are, comments too.

  --json  an object with the keys refusal (which has the keys of check) and changed
  --record, --text  how every file is taken; else its bytes tell (`release help`)

Exit status: 0 done, 2 a damaged record, or a draft that would be one, 3 a usage or
file error, 55 (the draft has a type of that name) or 56 (it has none).
";

pub const SHELF: &str = "\
usage: release shelf CALL SHELF .. [--json]

  release shelf set SHELF NAME DRAFT              leaves a draft under a name
  release shelf back SHELF NAME DRAFT RELEASED    takes it back
  release shelf list SHELF                        the names held

Keeps up to eight drafts in the file SHELF, each under a name of 1 to 16 bytes. `set`
puts the record in the file DRAFT, read as a current one, on the shelf, in place of the
draft held under that name before, and prints `held` and the number of names held; it
makes the file SHELF where there is none. `back` writes the draft of a name to the file
DRAFT, in place of what is there, and prints `changed` and the number of layouts that
differ from those of RELEASED; the shelf keeps it. A draft comes back with every byte
of its stream and its pool. `list` prints each name with the bytes of its draft, in the
order of the rows. A file is written beside the old one and then takes its place; where
a call is refused, no file is touched.

The shelf holds records. A draft that is set as a text loses its comments; `back` writes
a text where the file DRAFT is one, or with --text, and else a record.

  --json  an object with the keys refusal (which has the keys of check) and held,
          changed or drafts, a list of objects with name and bytes; a row without a
          name has null
  --record, --text  how every file is taken; else its bytes tell (`release help`)

Exit status: 0 done, 2 a damaged record, or a file that is no shelf, 3 a usage or file
error, 57 (eight other names are held, or the name does not have 1 to 16 bytes) or 58
(the name is not held, or the file has a draft outside its bytes or over another).
";

pub const REORDERED: &str = "\
usage: release reordered ONE OTHER [--json]

Says whether two records have the same sections in another order. Whole sections
may be moved, among those of other sorts too: constants, aliases, enums, bit fields,
structs, families, unstored keys and version entries; and within one its values,
members or variants, a variant with its fields. Fields are not moved. What is
compared is what the sections say, not where their texts lie. Both records are read
as released ones.

It is proved that either is accepted where the other is, as current or as released,
if both have one pool and no name or slot stands twice in its list or among the
layouts, neither in them nor in the record that they are checked with. Where that
does not cover the two the reason is printed. Where they differ the first section of
ONE that OTHER lacks is named, or else the first of OTHER, and what differs in it.

  --json  an object with the keys refusal and order, an object with answer (equal,
          reordered or apart), covered (status 0), sections (their number), moved
          (how many sections, values, members and variants stand at another place),
          same_pool, same_bytes (every command is one of the other's), twice (the
          first name that is) and apart (null, or an object with at, what, operand,
          first and second)
  --record, --text  how every file is taken; else its bytes tell (`release help`)

Exit status: 0 the proof covers them, or they are equal; 1 it does not; 2 a damaged
record; 3 a usage or file error.
";

pub const LINT: &str = "\
usage: release lint RECORD [--json]

Says where a record is outside the premises under which it is proved that no chain of
accepted records loses or moves anything, a line for each place that begins with the
premise:

  unreleased  the head says unreleased
  kinds       a field's kind is none of the sixteen
  twice       a name or slot stands twice in its list or among the layouts
  colon       a name has a colon
  constant    a structure in one of the three slots names no constant
  integer     the constant that it names is not there, or is a text
  owned       a type belongs to no such structure, so no generation number covers it

The last three are asked for what is proved of generation numbers alone. Lines that
begin with `remark` are about sizes: scalar words other than u8, char, u16 and u32,
and enums, aliases and bit fields that nothing declares. The record is read as a
released one, which may lack some texts.

  --json  an object with the keys refusal, premises (a list of objects with premise,
          words, of document 01, and what) and remarks (a list of texts)
  --record, --text  how every file is taken; else its bytes tell (`release help`)

Exit status: 0 nothing to say, 1 something is said, 2 a damaged record, 3 a usage or
file error.
";

pub const EXPLAIN: &str = "\
usage: release explain [NUMBER] [--json]

Prints what a number means in the words of the text form, why it is a fault, what to
do about it, and a smallest example with the answer that it gets. NUMBER may be the
number's word too. Without it all numbers are listed with their words.

  --json  an object with the keys number, word, means, why and cure; without NUMBER
          a list of them

Exit status: 0 explained, 3 a usage error, or a number that is never given.
";

pub const ASSEMBLE: &str = "\
usage: release assemble TEXT > RECORD

Writes the record that a text describes to standard output. The text has a command
in each line, the required operands first, then the others by keyword:

  head [RELEASE] [unreleased]
  constant NAME NUMBER [api] [since=RELEASE]
  constant NAME text=TEXT [api] [since=RELEASE]
  alias NAME UNDERLYING
  enum NAME SIZE [api] [since=RELEASE]
      value NAME NUMBER [since=RELEASE]
  bitfield NAME SIZE [since=RELEASE]
      member NAME BIT [width=N] [since=RELEASE]
  struct NAME [slot=SLOT] [version=CONSTANT]
      field NAME KIND [type=T] [element=T] [count=N] [rows=N] [cols=N] [size=N]
          key NAME [since=RELEASE]
  family NAME FIELD TYPE LENGTH_FIELD [length_type=T] [standalone]
      variant DISCRIMINANT
  unstored_key NAME [since=RELEASE]
  version STRUCT NUMBER
  end

A text with blanks, quotes, #, = or \\ in it, or without any byte, is written in
quotes, with \\\" and \\\\ for a quote and a backslash. # begins a comment.
docs/TEXT-FORM.md describes the form whole.

Exit status: 0 written, 2 the text is wrong (the line, the column and what was expected
there are on standard error, and no record is written), 3 a usage or file error.
";

pub const SHOW: &str = "\
usage: release show RECORD

Prints the text form of a record, of which `release assemble` makes a record with
the same answers. `release assemble --help` and docs/TEXT-FORM.md describe the form.
Of a text it prints what its record says, without comments and in one layout.

  --record, --text  how every file is taken; else its bytes tell (`release help`)

Exit status: 0 shown, 2 a damaged record, 3 a usage or file error.
";

pub const LOAD: &str = "\
usage: release load OUTCOME SEED > PAIR

Writes a pair of records to standard output, as the check program reads it: current
stream, current pool, released stream, released pool, each a length of four bytes
(little-endian) and its bytes. The check of the pair gives OUTCOME, which is 0, 20,
34, 35, 36 or 43; SEED is a number up to 2147483647. The same two numbers give the
same pair always. docs/LOAD.md says what is in it.

Exit status: 0 written, 3 another outcome or seed, a usage or file error.
";

pub const BURN_IN: &str = "\
usage: release burn-in --seeds A..B [--outcome N] [--json]

Makes the pair of each seed from A up to B, B not among them, with each of the six
outcomes or with one, checks it, and stops at the first whose check gives another
number. A line is printed for each thousand seeds, a line for the whole at the end.
Where standard error is a terminal a bar there says how far it is. A burn-in ends when
nobody reads its lines any more.

  --seeds A..B  the seeds; B is at most 2147483648
  --outcome N   one outcome: 0, 20, 34, 35, 36 or 43
  --json        only the summary: an object with the keys from, to, outcomes, pairs,
                bytes and difference, which is null or has seed, outcome and number

Exit status: 0 each pair has its outcome, 1 one has not, 3 another outcome or seed, a
usage or file error, or standard output closed before the end.
";

pub const HELP: &str = "\
usage: release help [COMMAND]

Prints the help of a command, as `release COMMAND --help` does, or that of the whole.

Exit status: 0 printed, 3 a usage error.
";

pub const COMPLETIONS: &str = "\
usage: release completions

Prints a script that completes commands and options in bash. For one shell:

  source <(release completions)

For all, put it where bash looks for completions:

  release completions > ~/.local/share/bash-completion/completions/release

Exit status: 0 printed, 3 a usage error.
";
