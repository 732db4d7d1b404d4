//! A step line: its word, the number of an edit and, for most calls, the numbers of a cue.

use crate::cue::{self, Cue};

/// A step as its line says it. The numbers keep to the digit rule; their ranges are for the desk to check.
#[derive(Clone, Copy, Debug, PartialEq, Eq)]
pub struct Step {
    pub edit: u32,
    pub action: Action,
}

#[derive(Clone, Copy, Debug, PartialEq, Eq)]
pub enum Action {
    Begin,
    Call(Call<[u32; 3]>),
    Commit,
    Undo,
    Back,
}

/// A call, with a cue or with the three numbers that may be one.
#[derive(Clone, Copy, Debug, PartialEq, Eq)]
pub enum Call<C> {
    Add(C),
    Remove(C),
    Has(C),
    Push(C),
    Min,
    Take,
}

/// The line is malformed or its word is unknown.
#[derive(Clone, Copy, Debug, PartialEq, Eq)]
pub struct Malformed;

/// The step of a line, which is given without its LF.
pub fn read(line: &[u8]) -> Result<Step, Malformed> {
    step(line.split(|&byte| byte == b',')).ok_or(Malformed)
}

fn step<'a>(mut fields: impl Iterator<Item = &'a [u8]>) -> Option<Step> {
    let word = fields.next()?;
    let mut number = || cue::number(fields.next()?);
    let edit = number()?;
    let mut numbers = || Some([number()?, number()?, number()?]);
    let action = match word {
        b"begin" => Action::Begin,
        b"add" => Action::Call(Call::Add(numbers()?)),
        b"remove" => Action::Call(Call::Remove(numbers()?)),
        b"has" => Action::Call(Call::Has(numbers()?)),
        b"push" => Action::Call(Call::Push(numbers()?)),
        b"min" => Action::Call(Call::Min),
        b"take" => Action::Call(Call::Take),
        b"commit" => Action::Commit,
        b"undo" => Action::Undo,
        b"back" => Action::Back,
        _ => return None,
    };
    fields.next().is_none().then_some(Step { edit, action })
}

impl Call<[u32; 3]> {
    /// The call with its cue, if it has none or each of the cue's numbers is in its range.
    pub fn in_range(self) -> Option<Call<Cue>> {
        Some(match self {
            Call::Add(numbers) => Call::Add(Cue::new(numbers)?),
            Call::Remove(numbers) => Call::Remove(Cue::new(numbers)?),
            Call::Has(numbers) => Call::Has(Cue::new(numbers)?),
            Call::Push(numbers) => Call::Push(Cue::new(numbers)?),
            Call::Min => Call::Min,
            Call::Take => Call::Take,
        })
    }
}

#[cfg(test)]
mod tests {
    use super::*;

    #[test]
    fn each_word_has_its_fields() {
        let cue = [1500, 4, 12];
        for (line, action) in [
            ("begin,3", Action::Begin),
            ("add,3,1500,4,12", Action::Call(Call::Add(cue))),
            ("remove,3,1500,4,12", Action::Call(Call::Remove(cue))),
            ("has,3,1500,4,12", Action::Call(Call::Has(cue))),
            ("push,3,1500,4,12", Action::Call(Call::Push(cue))),
            ("min,3", Action::Call(Call::Min)),
            ("take,3", Action::Call(Call::Take)),
            ("commit,3", Action::Commit),
            ("undo,3", Action::Undo),
            ("back,3", Action::Back),
        ] {
            assert_eq!(read(line.as_bytes()), Ok(Step { edit: 3, action }), "{line}");
            let (missing, _) = line.rsplit_once(',').expect("two fields or more");
            let odd = ["", ",", ",0", " ", "\r", "a"].map(|end| format!("{line}{end}"));
            for malformed in odd.iter().map(String::as_str).chain([missing, &line.to_uppercase(), &line[1..]]) {
                assert_eq!(read(malformed.as_bytes()).is_ok(), malformed == line, "{malformed:?}");
            }
        }
    }

    #[test]
    fn numbers_may_be_out_of_range_but_not_malformed() {
        let numbers = [999_999_999, 0, 33];
        let action = Action::Call(Call::Add(numbers));
        assert_eq!(read(b"add,999999999,999999999,0,33"), Ok(Step { edit: 999_999_999, action }));
        for line in ["", "begin", "begin,", "begin,01", "begin,1000000000", "steps", "step,1", "add,1,05,1,1", ",1"] {
            assert_eq!(read(line.as_bytes()), Err(Malformed), "{line:?}");
        }
    }
}
