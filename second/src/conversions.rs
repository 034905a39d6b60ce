//! The conversion commands of 002's Table 36: from a command and its fields to a code, and back.

use crate::numbers;

/// A row of Table 36. Eleven signs from code bit 10 down: 0 and 1 as printed, M for MD, D for DCP, P for PUP, C for the choice.
struct Row {
    name: &'static str,
    pattern: &'static str,
    choices: Choices,
}

/// The values that Table 37 lists for the choice.
enum Choices {
    None,
    Cells,
    Inputs,
    Status,
    SelfTests,
}

const ROWS: [Row; 13] = [
    row("ADCV", "01MM11D0CCC", Choices::Cells),
    row("ADOW", "01MMP1D1CCC", Choices::Cells),
    row("CVST", "01MMCC00111", Choices::SelfTests),
    row("ADOL", "01MM00D0001", Choices::None),
    row("ADAX", "10MM1100CCC", Choices::Inputs),
    row("ADAXD", "10MM0000CCC", Choices::Inputs),
    row("AXOW", "10MMP010CCC", Choices::Inputs),
    row("AXST", "10MMCC00111", Choices::SelfTests),
    row("ADSTAT", "10MM1101CCC", Choices::Status),
    row("ADSTATD", "10MM0001CCC", Choices::Status),
    row("STATST", "10MMCC01111", Choices::SelfTests),
    row("ADCVAX", "10MM11D1111", Choices::None),
    row("ADCVSC", "10MM11D0111", Choices::None),
];

const fn row(name: &'static str, pattern: &'static str, choices: Choices) -> Row {
    Row {
        name,
        pattern,
        choices,
    }
}

#[derive(Clone, Copy, Debug, PartialEq, Eq)]
pub struct Code {
    pub number: u8,
    pub code: u16,
}

/// A field that the command does not have is 0.
#[derive(Clone, Copy, Debug, Default, PartialEq, Eq)]
pub struct Conversion {
    pub number: u8,
    pub command: u32,
    pub mode: u32,
    pub discharge: u32,
    pub pull_up: u32,
    pub choice: u32,
}

/// The code of a command, numbered in the order of Table 36, with these fields.
pub fn conversion_code(command: u32, mode: u32, discharge: u32, pull_up: u32, choice: u32) -> Code {
    let fields = Fields {
        mode,
        discharge,
        pull_up,
        choice,
    };
    match ROWS.get(command as usize) {
        Some(row) if row.permits(&fields) => Code {
            number: numbers::DONE,
            code: row.filled(fields),
        },
        _ => Code {
            number: numbers::OUT_OF_RANGE,
            code: 0,
        },
    }
}

/// The command and fields of a code.
pub fn conversion_of(code: u32) -> Conversion {
    match reading(code) {
        Some((command, fields)) => Conversion {
            number: numbers::DONE,
            command: command as u32,
            mode: fields.mode,
            discharge: fields.discharge,
            pull_up: fields.pull_up,
            choice: fields.choice,
        },
        None => Conversion {
            number: numbers::UNKNOWN_COMMAND,
            ..Conversion::default()
        },
    }
}

/// The name of the conversion that `code` starts.
pub(crate) fn name(code: u32) -> Option<&'static str> {
    reading(code).map(|(command, _)| ROWS[command].name)
}

fn reading(code: u32) -> Option<(usize, Fields)> {
    ROWS.iter()
        .enumerate()
        .find_map(|(command, row)| Some((command, row.matched(code)?)))
}

#[derive(Default)]
struct Fields {
    mode: u32,
    discharge: u32,
    pull_up: u32,
    choice: u32,
}

impl Fields {
    fn of(&mut self, sign: u8) -> &mut u32 {
        match sign {
            b'M' => &mut self.mode,
            b'D' => &mut self.discharge,
            b'P' => &mut self.pull_up,
            _ => &mut self.choice,
        }
    }
}

impl Row {
    fn permits(&self, fields: &Fields) -> bool {
        let fits = |sign: char, value: u32| value < 1 << self.pattern.matches(sign).count();
        let listed = match self.choices {
            Choices::None => 0..=0,
            Choices::Cells | Choices::Inputs => 0..=6,
            Choices::Status => 0..=4,
            Choices::SelfTests => 1..=2,
        };
        fits('M', fields.mode)
            && fits('D', fields.discharge)
            && fits('P', fields.pull_up)
            && listed.contains(&fields.choice)
    }

    /// The pattern with the fields' bits for its letters, each field's lowest bit for its last letter.
    fn filled(&self, mut fields: Fields) -> u16 {
        let mut code = 0;
        for (place, sign) in self.pattern.bytes().rev().enumerate() {
            let bit = match sign {
                b'0' => 0,
                b'1' => 1,
                letter => {
                    let field = fields.of(letter);
                    let lowest = *field % 2;
                    *field /= 2;
                    lowest as u16
                }
            };
            code |= bit << place;
        }
        code
    }

    /// The fields that a code has by this row's pattern, if its other bits are as printed and its fields are permitted.
    fn matched(&self, code: u32) -> Option<Fields> {
        let mut fields = Fields::default();
        let mut left = code; // what stands above bit 10 counts to the first sign, which it then does not equal
        for (place, sign) in (0..self.pattern.len()).rev().zip(self.pattern.bytes()) {
            let bit = left >> place;
            left -= bit << place;
            match sign {
                b'0' | b'1' if bit != u32::from(sign - b'0') => return None,
                b'0' | b'1' => {}
                letter => {
                    let field = fields.of(letter);
                    *field = 2 * *field + bit;
                }
            }
        }
        self.permits(&fields).then_some(fields)
    }
}
