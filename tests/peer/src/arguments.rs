//! The command line.

pub const DEFAULT_INPUTS: u64 = 100_000;
pub const DEFAULT_HISTORIES: u64 = 10_000;
pub const DEFAULT_UPLOADS: u64 = 20_000;

#[derive(Clone, Copy)]
pub struct Arguments {
    pub seed: u64,
    pub inputs: u64,
    pub histories: u64,
    pub uploads: u64,
    pub program_inputs: u64,
    pub only: Option<u64>,
    pub only_program: Option<u64>,
}

impl Arguments {
    pub fn parse(mut words: impl Iterator<Item = String>) -> Result<Arguments, String> {
        let mut arguments = Arguments {
            seed: 1,
            inputs: DEFAULT_INPUTS,
            histories: DEFAULT_HISTORIES,
            uploads: DEFAULT_UPLOADS,
            program_inputs: 1_500,
            only: None,
            only_program: None,
        };
        while let Some(name) = words.next() {
            let value = words.next().ok_or(format!("{name} needs a number"))?;
            let number = value.parse().map_err(|_| format!("{value} is no number"))?;
            match name.as_str() {
                "--seed" => arguments.seed = number,
                "--inputs" => arguments.inputs = number,
                "--histories" => arguments.histories = number,
                "--uploads" => arguments.uploads = number,
                "--program-inputs" => arguments.program_inputs = number,
                "--only" => arguments.only = Some(number),
                "--only-program" => arguments.only_program = Some(number),
                _ => return Err(format!("{name} is not known")),
            }
        }
        Ok(arguments)
    }
}
