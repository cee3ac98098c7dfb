//! The samples that people are given: texts, and the files that are written for them.

/// A sample: its name, its text, and the file beside it.
pub struct Sample {
    #[cfg(test)]
    pub name: &'static str,
    pub text: &'static [u8],
    pub file: &'static [u8],
}

/// The sample with this name, of this folder and kind of file.
macro_rules! sample {
    ($folder:literal, $name:literal, $kind:literal) => {
        Sample {
            #[cfg(test)]
            name: $name,
            text: include_bytes!(concat!("../../../examples/", $folder, "/", $name, ".txt")),
            file: include_bytes!(concat!(
                "../../../examples/",
                $folder,
                "/",
                $name,
                ".",
                $kind
            )),
        }
    };
}

/// The sample periods that have a text.
pub const PERIODS: [Sample; 5] = [
    sample!("periods", "full-size", "period"),
    sample!("periods", "gas-fired", "period"),
    sample!("periods", "more-captured-than-burnt", "period"),
    sample!("periods", "outflow-over-inflow", "period"),
    sample!("periods", "whole", "period"),
];

/// The sample sheets that have a text; the readings of one of them end early.
pub const SHEETS: [Sample; 4] = [
    sample!("sheets", "missing", "sheet"),
    sample!("sheets", "sound", "sheet"),
    sample!("sheets", "standstill", "sheet"),
    sample!("sheets", "stuck", "sheet"),
];

/// The texts of these samples.
pub fn texts_of(samples: &[Sample]) -> Vec<Vec<u8>> {
    samples.iter().map(|sample| sample.text.to_vec()).collect()
}

#[cfg(test)]
mod tests {
    use super::*;
    use crate::periods::reading::read_numbers;
    use crate::sheets::sheet::read_sheet;
    use crate::writing::form::Form;
    use crate::writing::list::write_list;
    use crate::writing::text::numbers_in;
    use crate::writing::written::write_text;
    use std::fs;

    /// The names of the texts in a folder of samples, in order.
    fn names_in(folder: &str) -> Vec<String> {
        let path = format!("{}/../examples/{folder}", env!("CARGO_MANIFEST_DIR"));
        let files = fs::read_dir(path).expect("there is such a folder");
        let names = files.filter_map(|file| {
            let name = file.expect("its files can be listed").file_name();
            let name = name.to_str()?.strip_suffix(".txt")?;
            Some(name.to_string())
        });
        let mut names: Vec<String> = names.collect();
        names.sort();
        names
    }

    fn assert_all_there(samples: &[Sample], folder: &str) {
        let names: Vec<&str> = samples.iter().map(|sample| sample.name).collect();
        assert_eq!(names, names_in(folder));
    }

    fn typed(text: &[u8]) -> Vec<u64> {
        let numbers = numbers_in(text).expect("the text has only numbers and remarks");
        numbers.iter().map(|number| number.value).collect()
    }

    #[test]
    fn no_text_is_left_out() {
        assert_all_there(&PERIODS, "periods");
        assert_all_there(&SHEETS, "sheets");
    }

    #[test]
    fn periods_are_written_as_they_are_read() {
        for Sample { name, text, file } in PERIODS {
            let read = read_numbers(file).expect("only the accounts refuse a sample");
            assert_eq!(read.numbers(), typed(text), "{name}");
            let written = write_list(read.numbers(), Form::Period);
            assert_eq!(written.as_deref(), Ok(file), "{name}");
            assert_eq!(write_text(text, Form::Period).bytes(), file, "{name}");
        }
    }

    #[test]
    fn sheets_are_written_as_they_are_read() {
        for Sample { name, text, file } in SHEETS {
            let written = write_text(text, Form::Sheet).bytes();
            match read_sheet(file) {
                Ok(sheet) => {
                    assert_eq!(sheet.numbers(), typed(text), "{name}");
                    assert_eq!(written, file, "{name}");
                }
                Err(_) => assert_eq!(written, b"R 1 365 3965\n", "{name}"),
            }
        }
    }
}
