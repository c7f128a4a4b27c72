//! Command lines of the form `--name value`.

/// The options given on a command line.
pub struct Arguments(Vec<(String, String)>);

impl Arguments {
    /// Reads the process's own command line; only `known` names are taken.
    pub fn of_process(known: &[&str]) -> Result<Self, String> {
        Self::parse(std::env::args().skip(1), known)
    }

    /// Reads `words`; only `known` names are taken, each with a value.
    pub fn parse(mut words: impl Iterator<Item = String>, known: &[&str]) -> Result<Self, String> {
        let mut options = Vec::new();
        while let Some(name) = words.next() {
            if !known.contains(&name.as_str()) {
                return Err(format!("unknown option {name}; known: {}", known.join(" ")));
            }
            let value = words.next().ok_or(format!("{name} needs a value"))?;
            options.push((name, value));
        }
        Ok(Arguments(options))
    }

    /// The last value given for `name`.
    pub fn text(&self, name: &str) -> Option<&str> {
        let option = self.0.iter().rev().find(|(given, _)| given == name)?;
        Some(&option.1)
    }

    /// The number given for `name`.
    pub fn number(&self, name: &str) -> Result<Option<u64>, String> {
        let text = match self.text(name) {
            Some(text) => text,
            None => return Ok(None),
        };
        match text.parse() {
            Ok(number) => Ok(Some(number)),
            Err(_) => Err(format!("{name} needs a number, not {text}")),
        }
    }
}

#[cfg(test)]
mod tests {
    use super::*;

    fn parse(line: &str) -> Result<Arguments, String> {
        Arguments::parse(
            line.split_whitespace().map(String::from),
            &["--runs", "--seed"],
        )
    }

    #[test]
    fn options() {
        let arguments = parse("--runs 3 --seed 4 --runs 5").unwrap();
        assert_eq!(arguments.number("--runs"), Ok(Some(5)));
        assert_eq!(arguments.text("--seed"), Some("4"));
        assert_eq!(parse("").unwrap().number("--runs"), Ok(None));
    }

    #[test]
    fn bad_options() {
        assert!(parse("--other 3").is_err());
        assert!(parse("--runs").is_err());
        assert!(parse("--runs x").unwrap().number("--runs").is_err());
    }
}
