//! The command line: a command, options with a value each, and paths.

use std::path::PathBuf;

pub struct Args {
    pub command: String,
    pub paths: Vec<PathBuf>,
    options: Vec<(String, String)>,
}

impl Args {
    pub fn read(mut words: impl Iterator<Item = String>) -> Result<Args, String> {
        let mut args = Args {
            command: words.next().unwrap_or_else(|| "help".to_owned()),
            paths: Vec::new(),
            options: Vec::new(),
        };
        while let Some(word) = words.next() {
            if word.starts_with('-') {
                let value = words.next().ok_or(format!("{word} has no value"))?;
                args.options.push((word, value));
            } else {
                args.paths.push(word.into());
            }
        }
        Ok(args)
    }

    /// The value of an option.
    pub fn text(&self, name: &str) -> Option<&str> {
        let found = self.options.iter().find(|(option, _)| option == name);
        found.map(|(_, value)| value.as_str())
    }

    /// The number of an option, or a default.
    pub fn number(&self, name: &str, default: u64) -> Result<u64, String> {
        match self.text(name) {
            None => Ok(default),
            Some(text) => text
                .replace('_', "")
                .parse()
                .map_err(|_| format!("{name} {text} is no number")),
        }
    }

    /// Refuses options that the command does not have.
    pub fn only(&self, names: &[&str]) -> Result<(), String> {
        match self
            .options
            .iter()
            .find(|(o, _)| !names.contains(&o.as_str()))
        {
            Some((option, _)) => Err(format!("{} has no option {option}", self.command)),
            None => Ok(()),
        }
    }
}
