//! How a page looks: light and dark, narrow and wide.

pub const STYLE: &str = "\
:root { color-scheme: light dark; --back: #fff; --text: #1b1f24; --soft: #59636e; --line: #d0d7de; --same: #eef1f4;
  --bad: #ffe3e0; --bad-line: #b3261e; --good: #e0f2e4; --good-line: #1a6b33; --new: #dcebff; --new-line: #0b57c0; }
@media (prefers-color-scheme: dark) {
  :root { --back: #14171a; --text: #e6e9ec; --soft: #9aa4ae; --line: #3a424a; --same: #22272c;
    --bad: #4a1f1c; --bad-line: #ff8a80; --good: #1a3a24; --good-line: #7fd694; --new: #16304f; --new-line: #8ab8ff; }
}
* { box-sizing: border-box; }
body { margin: 0; background: var(--back); color: var(--text); font: 16px/1.45 system-ui, sans-serif; overflow-wrap: anywhere; }
main, footer { max-width: 60em; margin: 0 auto; padding: 0.75em 1em; }
h1 { font-size: 1.5em; margin: 0 0 0.4em; }
h2 { font-size: 1.2em; margin: 1.6em 0 0.5em; border-bottom: 1px solid var(--line); }
h3 { font-size: 1em; margin: 1.2em 0 0.4em; }
code { font-family: ui-monospace, monospace; font-size: 0.9em; }
small { color: var(--soft); font-weight: normal; }
.verdict { border-left: 0.4em solid; padding: 0.8em 1em; }
.verdict.good { background: var(--good); border-color: var(--good-line); }
.verdict.bad { background: var(--bad); border-color: var(--bad-line); }
.message { font-size: 1.1em; }
dt { font-weight: bold; margin-top: 0.5em; }
dd { margin: 0; }
.legend { color: var(--soft); }
.map { display: grid; grid-template-columns: minmax(2.6em, auto) 1fr 1fr 1fr; gap: 2px; font-size: 0.85em; line-height: 1.25; }
.map > div { padding: 0.25em 0.4em; border-left: 0.25em solid var(--line); background: var(--same); min-width: 0; }
.map > .byte { background: none; border: 0; border-top: 1px solid var(--line); color: var(--soft); padding-left: 0; }
.map > .padding { background: repeating-linear-gradient(45deg, transparent 0 6px, var(--line) 6px 7px); }
.map > .new { background: var(--new); border-color: var(--new-line); }
.map > .moved, .map > .wrong { background: var(--bad); border-color: var(--bad-line); }
.map > .right { background: var(--good); border-color: var(--good-line); }
.head { font-size: 0.9em; align-self: end; }
em { font-weight: bold; font-style: normal; }
table { border-collapse: collapse; width: 100%; table-layout: fixed; }
th { text-align: left; padding: 0.3em; }
td { vertical-align: top; padding: 0.3em; border-top: 1px solid var(--line); }
.parent th { border-top: 1px solid var(--line); color: var(--soft); font-weight: normal; padding-top: 0.8em; }
td.was { border-left: 0.25em solid var(--bad-line); }
td.is { border-left: 0.25em solid var(--new-line); }
td.none { color: var(--soft); }
@media (max-width: 30em) { main, footer { padding: 0.5em; } .map { font-size: 0.75em; } }
";
