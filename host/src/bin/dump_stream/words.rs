//! What the words of a command line ask for.
use std::ffi::{OsStr, OsString};

/// Where bytes come from.
#[derive(Debug, PartialEq, Eq)]
pub enum Source {
    StandardInput,
    File(OsString),
}

impl Source {
    fn of(word: &OsStr) -> Result<Source, String> {
        match word {
            word if word.is_empty() => Err("a file's name is empty".to_string()),
            word if word == "-" => Ok(Source::StandardInput),
            word => Ok(Source::File(word.to_os_string())),
        }
    }
}

/// A listing that is asked for.
#[derive(Debug, PartialEq, Eq)]
pub struct Asked {
    pub strict: bool,
    /// Whether the source is a desk script, and no stream.
    pub desk: bool,
    pub source: Source,
}

impl Asked {
    /// Reads the words; `None` asks for help. Behind `--` a word is a file, whatever it begins with.
    pub fn of(words: &[&OsStr]) -> Result<Option<Asked>, String> {
        let (mut strict, mut script, mut files) = (false, None, Vec::new());
        let mut words = words.iter();
        while let Some(&word) = words.next() {
            match word.to_string_lossy().as_ref() {
                "-h" | "--help" => return Ok(None),
                "--strict" => strict = true,
                "--desk" => {
                    let name = words.next().ok_or("--desk needs a script")?;
                    if script.replace(Source::of(name)?).is_some() {
                        return Err("there is one --desk at most".to_string());
                    }
                }
                "--" => files.extend(words.by_ref()),
                option if option.starts_with('-') && option != "-" => {
                    return Err(format!("there is no option {}", option));
                }
                _ => files.push(word),
            }
        }
        let desk = script.is_some();
        let source = match (script, &files[..]) {
            (Some(script), []) => script,
            (None, []) => Source::StandardInput,
            (None, [file]) => Source::of(file)?,
            (Some(_), _) => return Err("there is a file beside --desk".to_string()),
            (None, _) => return Err("there is more than one file".to_string()),
        };
        Ok(Some(Asked {
            strict,
            desk,
            source,
        }))
    }
}
