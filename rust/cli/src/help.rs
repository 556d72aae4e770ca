//! The help, made of the commands' own tables and of the library's words for its refusals.

use crate::command::{Command, COMMANDS};
use crate::options::Choice;
use hailfeather::Refusal;

const ABOUT: &str = "hailfeather: chute plans, hall plans, sealing, cSHAKE256, KMAC256, KMACXOF256 and two generators, proved

Usage:
    hailfeather COMMAND [OPTIONS] [FILE]
    hailfeather COMMAND --help
    hailfeather --version
";

const EXAMPLE: &str = "Head office writes a plan and seals it; a depot opens and reports it:
    (umask 077; head -c 32 /dev/urandom > depot.key)
    printf '7\\n300\\n0\\n' | hailfeather plan write -o depot.plan &&
    hailfeather seal --key-file depot.key --iv 'depot 7, plan 1' depot.plan -o plan.sealed &&
    hailfeather open --key-file depot.key --iv 'depot 7, plan 1' plan.sealed -o opened.plan &&
    hailfeather plan report opened.plan
    # rows 3
    # 1 7
    # 2 300
    # 3 0
";

const RULES: &str = "Files: where FILE is left out or is -, standard input is read. A file after -o appears whole or not at all.
One that is there keeps its mode, but what open, draw and kmac --raw write is readable by its owner alone.
Bytes: a file's bytes count as they are, a final line feed too, except in the -hex-file forms, where white space is passed over.
Pipes: a command after a pipe runs even if the one before it was refused, and the shell reports the status of the last:
write to a file with -o and go on with &&, or say set -o pipefail for the shell to report a refusal.
Texts: an option --X TEXT can also be given as --X-hex HEX or as --X-file FILE.
Secrets: keys and seeds are read from files alone, since every user of the machine can see the arguments.
Timing: nothing is promised of how long a command takes; it may depend on secrets.

Exit status:
     0  done
     2 to 10  refused by the library, with its number; nothing is written
    64  the command line is not understood
    65  a text that was read is malformed, or a file has no tag of the length that is asked for
    74  a file cannot be read or written
";

/// The help of the tool.
pub fn general() -> String {
    let commands: String = COMMANDS
        .iter()
        .map(|command| format!("    {:<13} {}\n", command.name, command.purpose))
        .collect();
    format!("{ABOUT}\nCommands:\n{commands}\n{EXAMPLE}\n{RULES}")
}

/// The help of all commands with the same first word.
pub fn group(word: &str) -> String {
    let helps: Vec<String> = COMMANDS
        .iter()
        .filter(|command| command.name.split(' ').next() == Some(word))
        .map(|command| of(command))
        .collect();
    helps.join("\n\n")
}

/// The help of one command.
pub fn of(command: &Command) -> String {
    let Command {
        name,
        purpose,
        examples,
        notes,
        ..
    } = command;
    let mut help = format!("hailfeather {name}: {purpose}\n\nUsage:\n    {}\n", usage(command));
    if !command.options.is_empty() {
        help += "\nOptions:\n";
        help += &command
            .options
            .iter()
            .map(|choice| format!("    {}\n{}", choice.ways().join(", "), indented(&indented(choice.about))))
            .collect::<String>();
    }
    help += "\n";
    if let Some(file) = command.operands.last() {
        help += &format!("Where {file} is left out or is -, standard input is read.\n");
    }
    help += &format!("{notes}\n\nExamples:\n{}\n", indented(examples));
    help += "Refusals, by the number that is also the exit status:\n";
    help + &refusals(command.refusals)
        .iter()
        .map(|refusal| format!("    {:>2}  {}\n", refusal.number(), refusal.words()))
        .collect::<String>()
}

fn usage(command: &Command) -> String {
    let option = |choice: &Choice| {
        let way = choice.ways().swap_remove(0);
        if choice.required {
            way
        } else {
            format!("[{way}]")
        }
    };
    let mut words = vec![format!("hailfeather {}", command.name)];
    words.extend(command.options.iter().map(option));
    if let Some((input, needed)) = command.operands.split_last() {
        words.extend(needed.iter().map(|operand| operand.to_string()));
        words.push(format!("[{input}]"));
    }
    words.join(" ")
}

fn indented(lines: &str) -> String {
    lines.lines().map(|line| format!("    {line}").trim_end().to_string() + "\n").collect()
}

/// The refusals with these numbers of these entries, by rising number, none twice.
fn refusals(entries: &[(&str, &[u8])]) -> Vec<Refusal> {
    let mut refusals: Vec<Refusal> = Vec::new();
    for (entry, numbers) in entries {
        for refusal in hailfeather::refusals(entry).filter(|refusal| numbers.contains(&refusal.number())) {
            if !refusals.contains(&refusal) {
                refusals.push(refusal);
            }
        }
    }
    refusals.sort_by_key(|refusal| refusal.number());
    refusals
}

#[cfg(test)]
mod tests {
    use super::*;

    #[test]
    fn every_refusal_is_the_library_s() {
        for command in COMMANDS {
            for (entry, numbers) in command.refusals {
                let found: Vec<u8> = refusals(&[(entry, numbers)]).iter().map(|refusal| refusal.number()).collect();
                assert_eq!(found, *numbers, "{entry}");
            }
        }
    }

    #[test]
    fn equal_refusals_are_listed_once_and_others_each() {
        let numbers = |entries: &[(&str, &[u8])]| refusals(entries).iter().map(|refusal| refusal.number()).collect::<Vec<u8>>();
        assert_eq!(numbers(&[("kmac256", &[2, 5]), ("session_kmacxof256", &[2]), ("take", &[5])]), [2, 5]);
        assert_eq!(numbers(&[("kmac256", &[6]), ("kmacxof256", &[6]), ("kmac256", &[6, 2])]), [2, 6, 6]);
    }

    #[test]
    fn no_line_is_wider_than_the_repository() {
        let helps = COMMANDS.iter().map(|command| of(command)).chain([general()]);
        for help in helps {
            assert!(help.lines().all(|line| line.len() <= 150 && line == line.trim_end()), "{help}");
        }
    }
}
