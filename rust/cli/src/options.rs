//! The options that commands take, as tables: the parser and the help read the same ones.

/// What an option is followed by. The words are placeholders in the help.
#[derive(Clone, Copy)]
pub enum Kind {
    Flag,
    /// A number of any size.
    Number,
    /// A file to be read.
    Input(&'static str),
    /// A file to be written.
    Output(&'static str),
    /// Bytes that may be seen by everyone: as they are, as hexadecimal digits, or in a file.
    Text,
    /// Bytes that nobody may see: only in a file.
    Secret,
}

/// How the value of an option stands on the command line.
#[derive(Clone, Copy, PartialEq, Debug)]
pub enum Form {
    Flag,
    Plain,
    Hex,
    File,
    HexFile,
}

/// An option that a command takes.
pub struct Choice {
    pub name: &'static str,
    pub kind: Kind,
    pub required: bool,
    pub about: &'static str,
}

pub const fn required(name: &'static str, kind: Kind, about: &'static str) -> Choice {
    Choice {
        name,
        kind,
        required: true,
        about,
    }
}

pub const fn optional(name: &'static str, kind: Kind, about: &'static str) -> Choice {
    Choice {
        name,
        kind,
        required: false,
        about,
    }
}

/// The name of the option that -o is short for.
pub const OUTPUT: &str = "output";

/// The option -o.
pub const fn output(file: &'static str, about: &'static str) -> Choice {
    optional(OUTPUT, Kind::Output(file), about)
}

impl Choice {
    /// Each way to give the option: the word for it, the form, and the placeholder.
    pub fn forms(&self) -> Vec<(String, Form, &'static str)> {
        let forms: &[(&str, Form, &'static str)] = match self.kind {
            Kind::Flag => &[("", Form::Flag, "")],
            Kind::Number => &[("", Form::Plain, "N")],
            Kind::Input(file) => &[("", Form::File, file)],
            Kind::Output(file) => &[("", Form::Plain, file)],
            Kind::Text => &[("", Form::Plain, "TEXT"), ("-hex", Form::Hex, "HEX"), ("-file", Form::File, "FILE")],
            Kind::Secret => &[("-file", Form::File, "FILE"), ("-hex-file", Form::HexFile, "FILE")],
        };
        let short = (self.name == OUTPUT).then(|| ("-o".to_string(), forms[0].1, forms[0].2));
        let long = forms
            .iter()
            .map(|(suffix, form, placeholder)| (format!("--{}{suffix}", self.name), *form, *placeholder));
        short.into_iter().chain(long).collect()
    }

    /// Each way to give the option, as it is typed.
    pub fn ways(&self) -> Vec<String> {
        self.forms()
            .into_iter()
            .map(|(word, _, placeholder)| format!("{word} {placeholder}").trim_end().to_string())
            .collect()
    }
}
