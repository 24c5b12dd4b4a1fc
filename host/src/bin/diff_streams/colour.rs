//! Colour, where standard output is a terminal or it is asked for.
use std::env;
use std::fs;
use std::path::Path;
use zelezmut::diff::Class;

/// When there is colour.
#[derive(Clone, Copy, Debug, PartialEq, Eq)]
pub enum When {
    Always,
    Never,
    Auto,
}

impl When {
    pub fn named(word: &str) -> Option<When> {
        match word {
            "always" => Some(When::Always),
            "never" => Some(When::Never),
            "auto" => Some(When::Auto),
            _ => None,
        }
    }

    /// Whether there is colour now.
    pub fn is_now(self) -> bool {
        match self {
            When::Always => true,
            When::Never => false,
            When::Auto => goes_to_terminal() && !is_unwelcome(),
        }
    }
}

/// What the environment says against it.
fn is_unwelcome() -> bool {
    let no_colour = env::var_os("NO_COLOR").filter(|value| !value.is_empty());
    no_colour.is_some() || env::var_os("TERM").map_or(true, |name| name == "dumb")
}

/// By the file that standard output is: the standard library of rustc 1.63 has no call for it.
fn goes_to_terminal() -> bool {
    fs::read_link("/proc/self/fd/1").map_or(false, |file| is_terminal(&file))
}

fn is_terminal(file: &Path) -> bool {
    let named = |start: &str| file.to_string_lossy().starts_with(start);
    named("/dev/pts/") || named("/dev/tty") || file == Path::new("/dev/console")
}

/// A class's word, in its colour if there is any.
pub fn class_word(class: Class, coloured: bool) -> String {
    let code = match class {
        Class::SameOpcode => 33,
        Class::OtherOpcode => 35,
        Class::OnlyFirst => 31,
        Class::OnlySecond => 32,
        Class::Equal | Class::Neither => return class.to_string(),
    };
    if coloured {
        format!("\x1b[{}m{}\x1b[0m", code, class)
    } else {
        class.to_string()
    }
}

#[cfg(test)]
mod tests {
    use super::*;

    #[test]
    fn terminals_are_told_by_their_files() {
        for file in [
            "/dev/pts/3",
            "/dev/tty",
            "/dev/tty1",
            "/dev/ttyS0",
            "/dev/console",
        ] {
            assert!(is_terminal(Path::new(file)), "{}", file);
        }
        for file in [
            "/dev/null",
            "pipe:[17]",
            "/tmp/pts/3",
            "/dev/pts",
            "socket:[8]",
            "",
        ] {
            assert!(!is_terminal(Path::new(file)), "{}", file);
        }
    }

    #[test]
    fn equal_packets_have_no_colour() {
        assert_eq!(class_word(Class::Equal, true), "equal");
        assert_eq!(class_word(Class::OnlyFirst, false), "only_first");
        assert_eq!(
            class_word(Class::OnlyFirst, true),
            "\x1b[31monly_first\x1b[0m"
        );
    }
}
