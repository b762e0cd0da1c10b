//! What keeps the tool from answering, and the status it ends with.

#[derive(Debug)]
pub enum Failure {
    /// The command line makes no sense.
    Usage(String),
    /// The input cannot be read.
    Input(String),
    /// What was asked for cannot be written.
    Output(String),
}

impl Failure {
    pub fn status(&self) -> u8 {
        match self {
            Self::Usage(_) | Self::Input(_) => 2,
            Self::Output(_) => 3,
        }
    }

    pub fn message(&self) -> String {
        match self {
            Self::Usage(message) => format!("{message}; try --help"),
            Self::Input(message) | Self::Output(message) => message.clone(),
        }
    }
}
