//! `bobbincrag completions`: a script for bash, made from the table of commands.
use crate::args::Args;
use crate::commands;
use crate::failure::Failure;
use crate::output;

pub fn run(args: &Args) -> Result<(), Failure> {
    match args.exactly("the name of a shell, which is bash")? {
        ["bash"] => output::print(bash().as_bytes()),
        [other] => Err(args.usage(format!("there are completions for bash, none for {other}"))),
    }
}

/// Options, and values of `--kind`; for any other value bash completes file names.
fn bash() -> String {
    let names: Vec<&str> = commands::ALL.iter().map(|c| c.name).collect();
    let mut cases = String::new();
    for command in &commands::ALL {
        let options = command.options.iter().map(|o| if o.long.is_empty() { o.name } else { o.long });
        let words: Vec<&str> = options.chain(["--help"]).collect();
        cases += &format!("        {}) words=\"{}\" ;;\n", command.name, words.join(" "));
    }
    BASH.replace("COMMANDS", &names.join(" ")).replace("CASES", cases.trim_end())
}

const BASH: &str = r#"# completions of bobbincrag for bash
_bobbincrag() {
    local word="${COMP_WORDS[COMP_CWORD]}" before="${COMP_WORDS[COMP_CWORD-1]}" words=""
    COMPREPLY=()
    if [ "$COMP_CWORD" -eq 1 ]; then
        COMPREPLY=($(compgen -W "COMMANDS --help --version" -- "$word"))
        return
    fi
    if [ "$before" = --kind ]; then
        COMPREPLY=($(compgen -W "ass srt vtt" -- "$word"))
        return
    fi
    if [ "${COMP_WORDS[1]}" = completions ] && [ "$COMP_CWORD" -eq 2 ]; then
        COMPREPLY=($(compgen -W "bash --help" -- "$word"))
        return
    fi
    case "$word" in
        -*) ;;
        *) return ;;
    esac
    case "${COMP_WORDS[1]}" in
CASES
    esac
    COMPREPLY=($(compgen -W "$words" -- "$word"))
}
complete -o default -F _bobbincrag bobbincrag
"#;
