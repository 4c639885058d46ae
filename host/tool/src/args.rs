//! The command line: a command's words, options and switches.

use std::ffi::{OsStr, OsString};
use std::path::PathBuf;

use crate::failure::Failure;
use crate::time::Time;

/// What a command takes.
pub struct Spec {
    pub name: &'static str,
    /// Its words in order, the optional ones in brackets.
    pub words: &'static [&'static str],
    /// Options that have a value.
    pub options: &'static [&'static str],
    pub switches: &'static [&'static str],
    pub help: &'static str,
}

/// What a command was given.
#[derive(Debug)]
pub struct Given {
    words: Vec<OsString>,
    options: Vec<(&'static str, OsString)>,
    switches: Vec<&'static str>,
}

fn usage(says: String) -> Failure {
    Failure::Usage(says)
}

impl Spec {
    pub fn usage(&self) -> String {
        let words = self.words.join(" ");
        format!("sangueko {} {words} [OPTIONS]", self.name)
    }

    fn required(&self) -> usize {
        self.words
            .iter()
            .filter(|word| !word.starts_with('['))
            .count()
    }

    pub fn parse(&self, arguments: &[OsString]) -> Result<Given, Failure> {
        let mut given = Given {
            words: Vec::new(),
            options: Vec::new(),
            switches: Vec::new(),
        };
        let mut arguments = arguments.iter();
        let mut only_words = false;
        while let Some(argument) = arguments.next() {
            let text = argument
                .to_str()
                .filter(|text| !only_words && text.starts_with("--"));
            match text {
                None => given.words.push(argument.clone()),
                Some("--") => only_words = true,
                Some(text) => self.option(text, &mut arguments, &mut given)?,
            }
        }
        if given.words.len() < self.required() {
            let missing = self
                .words
                .get(given.words.len())
                .copied()
                .unwrap_or_default();
            return Err(usage(format!(
                "{}: {missing} is missing; usage: {}",
                self.name,
                self.usage()
            )));
        }
        if let Some(more) = given.words.get(self.words.len()) {
            let more = more.to_string_lossy();
            return Err(usage(format!(
                "{}: `{more}` is one word too many; usage: {}",
                self.name,
                self.usage()
            )));
        }
        Ok(given)
    }

    /// `--name value`, `--name=value` or `--name`.
    fn option<'a>(
        &self,
        text: &str,
        arguments: &mut impl Iterator<Item = &'a OsString>,
        given: &mut Given,
    ) -> Result<(), Failure> {
        let (name, value) = match text.split_once('=') {
            Some((name, value)) => (name, Some(OsString::from(value))),
            None => (text, None),
        };
        if let Some(switch) = self.switches.iter().find(|switch| **switch == name) {
            if value.is_some() {
                return Err(usage(format!("{}: {switch} takes no value", self.name)));
            }
            given.switches.push(switch);
            return Ok(());
        }
        let option = self.options.iter().find(|option| **option == name);
        let option = option.ok_or_else(|| {
            usage(format!(
                "{}: there is no option {name}; `sangueko {} --help`",
                self.name, self.name
            ))
        })?;
        let value = value.or_else(|| arguments.next().cloned());
        let value = value.ok_or_else(|| usage(format!("{}: {option} needs a value", self.name)))?;
        given.options.push((option, value));
        Ok(())
    }
}

impl Given {
    /// A word that the command requires.
    pub fn word(&self, at: usize) -> &OsStr {
        self.words
            .get(at)
            .map(OsString::as_os_str)
            .unwrap_or_default()
    }

    pub fn path(&self, at: usize) -> PathBuf {
        PathBuf::from(self.word(at))
    }

    /// A word that need not be there.
    pub fn optional_word(&self, at: usize) -> Option<&OsStr> {
        self.words.get(at).map(OsString::as_os_str)
    }

    pub fn number(&self, at: usize, what: &str) -> Result<u64, Failure> {
        number(self.word(at), what)
    }

    /// A number that need not be there.
    pub fn optional_number(&self, at: usize, what: &str) -> Result<Option<u64>, Failure> {
        let word = self.optional_word(at);
        word.map(|word| number(word, what)).transpose()
    }

    pub fn switch(&self, name: &str) -> bool {
        self.switches.contains(&name)
    }

    /// The value that was given last.
    pub fn value(&self, name: &str) -> Option<&OsStr> {
        let mut options = self.options.iter().rev();
        options
            .find(|(given, _)| *given == name)
            .map(|(_, value)| value.as_os_str())
    }

    pub fn path_option(&self, name: &str) -> Option<PathBuf> {
        self.value(name).map(PathBuf::from)
    }

    pub fn number_option(&self, name: &str) -> Result<Option<u64>, Failure> {
        self.value(name)
            .map(|value| number(value, name))
            .transpose()
    }

    /// A number up to a bound, or what stands for it.
    pub fn size_option(&self, name: &str, otherwise: usize) -> Result<usize, Failure> {
        let Some(number) = self.number_option(name)? else {
            return Ok(otherwise);
        };
        usize::try_from(number).map_err(|_| usage(format!("{name}: {number} is too large")))
    }

    pub fn uuid_option(&self) -> Result<Option<[u8; 16]>, Failure> {
        let Some(value) = self.value("--uuid") else {
            return Ok(None);
        };
        let wrong = || {
            usage(format!(
                "--uuid: `{}` is not 32 hexadecimal digits",
                value.to_string_lossy()
            ))
        };
        let text = value.to_str().ok_or_else(wrong)?;
        let digits: String = text.chars().filter(|c| *c != '-').collect();
        if digits.len() != 32 || !digits.chars().all(|c| c.is_ascii_hexdigit()) {
            return Err(wrong());
        }
        let uuid = u128::from_str_radix(&digits, 16).map_err(|_| wrong())?;
        Ok(Some(uuid.to_be_bytes()))
    }

    /// The time given, or now.
    pub fn time(&self) -> Result<Time, Failure> {
        let Some(value) = self.value("--time") else {
            return Ok(Time::now());
        };
        let text = value.to_string_lossy();
        Time::parse(&text).ok_or_else(|| {
            usage(format!(
                "--time: `{text}` is not a number of seconds since 1970, with up to nine digits after a point"
            ))
        })
    }
}

/// Decimal; underscores and commas may stand between the digits.
pub fn number(value: &OsStr, what: &str) -> Result<u64, Failure> {
    let text = value.to_string_lossy();
    let digits: String = text.chars().filter(|c| !matches!(c, '_' | ',')).collect();
    let plain = !digits.is_empty() && digits.chars().all(|c| c.is_ascii_digit());
    let number = digits.parse().ok().filter(|_| plain);
    number.ok_or_else(|| {
        usage(format!(
            "{what}: `{text}` is not a number from 0 to 18,446,744,073,709,551,615"
        ))
    })
}
