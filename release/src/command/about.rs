//! `release help`, `release --version` and `release completions`: what is said of the command itself.

use super::args::Args;
use super::files::shown;
use super::output::print;
use super::{help, Done, Stop, DONE, ENTRIES};

/// The help of a command, or of the whole.
pub fn help(args: &Args) -> Done {
    let text = match args.operands.first() {
        None => help::WHOLE,
        Some(name) => {
            let entry = ENTRIES.iter().find(|entry| &**name == entry.rule.name);
            let unknown =
                || Stop::failed(format!("help: there is no command {}\n{}", shown(name), help::COMMANDS));
            entry.ok_or_else(unknown)?.rule.help
        }
    };
    print(text.as_bytes()).map(|()| DONE)
}

/// The version of the command, with the revision and the archive of the proved library that it links.
pub fn version() -> Done {
    let (version, revision) = (env!("CARGO_PKG_VERSION"), env!("MENQACHU_REVISION"));
    let sum = env!("MENQACHU_ARCHIVE_SUM");
    let text = format!("release {version}\nproved library: revision {revision}, archive SHA-256 {sum}\n");
    print(text.as_bytes()).map(|()| DONE)
}

/// A script for bash that completes commands, options and what is no file.
pub fn completions(_: &Args) -> Done {
    let names: Vec<&str> = ENTRIES.iter().map(|entry| entry.rule.name).collect();
    let names = names.join(" ");
    let mut cases = String::new();
    for entry in &ENTRIES {
        let words = match entry.rule.name {
            "draft" => "add remove count",
            "shelf" => "set back list",
            "help" => &names,
            _ => "",
        };
        let options: Vec<&str> =
            entry.rule.options.iter().map(|option| option.trim_end_matches('=')).collect();
        let options = [&options[..], &["--help"]].concat().join(" ");
        cases.push_str(&format!("    {}) words='{words}' options='{options}' ;;\n", entry.rule.name));
    }
    print(SCRIPT.replace("NAMES", &names).replace("    CASES\n", &cases).as_bytes()).map(|()| DONE)
}

/// Where nothing is given to choose from, bash completes the names of files.
const SCRIPT: &str = "\
# Completions of `release` for bash: source <(release completions)
_release() {
    local word=\"${COMP_WORDS[COMP_CWORD]}\" words='' options=''
    COMPREPLY=()
    if [ \"$COMP_CWORD\" -eq 1 ]; then
        COMPREPLY=($(compgen -W 'NAMES --help --version' -- \"$word\"))
        return
    fi
    case \"${COMP_WORDS[1]}\" in
    CASES
    esac
    case \"$word\" in
    -*) COMPREPLY=($(compgen -W \"$options\" -- \"$word\")) ;;
    *) [ \"$COMP_CWORD\" -ne 2 ] || COMPREPLY=($(compgen -W \"$words\" -- \"$word\")) ;;
    esac
}
complete -o default -F _release release
";
