//! The comparison over pipes finds programs that do not answer, or answer wrongly. A shell stands in for the answering program.

use second::compare::{odd_values, one_byte_changes, positions, Agreed, Compare};
use second::piped::{Pipe, NO_ANSWER};
use std::io;
use std::process::Command;

fn shell(commands: &str) -> io::Result<Pipe> {
    Pipe::start(Command::new("sh").arg("-c").arg(commands))
}

/// What such a program is told to have answered, in each of three parts.
fn answers(commands: &str) -> [String; 3] {
    let parts: [fn(&mut Compare) -> Agreed; 3] =
        [positions, one_byte_changes, |compare| odd_values(compare, 1, 2000)];
    parts.map(|part| {
        let compare = &mut Compare::through(shell(commands).unwrap(), 0, 1);
        part(compare).and_then(|()| compare.end()).unwrap_err().theirs
    })
}

#[test]
fn a_program_has_to_greet() {
    assert!(Pipe::start(&mut Command::new("./no such program")).is_err());
    assert!(shell("exit 0").is_err());
    assert!(shell("echo something else").is_err());
    assert!(shell("echo answers").is_ok());
}

#[test]
fn a_program_that_ends_is_found() {
    for commands in ["echo answers", "echo answers; cat >/dev/null"] {
        for theirs in answers(commands) {
            assert_eq!(theirs, NO_ANSWER);
        }
    }
}

#[test]
fn a_wrong_answer_is_found() {
    for theirs in answers("echo answers; exec cat /dev/zero") {
        assert_ne!(theirs, NO_ANSWER);
    }
}
