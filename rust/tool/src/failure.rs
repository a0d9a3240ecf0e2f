//! What ends the tool early.

use std::io;
use std::process::ExitCode;

#[derive(Debug)]
pub enum Failure {
    /// The command line is not as the help says.
    Usage(String),
    /// A file that cannot be read, or that is no day, no book and no text of changes.
    Input(String),
    Output(io::Error),
}

impl From<io::Error> for Failure {
    fn from(error: io::Error) -> Self {
        Failure::Output(error)
    }
}

impl Failure {
    /// Says what is wrong, on standard error.
    pub fn report(self) -> ExitCode {
        match self {
            Failure::Usage(reason) => {
                eprintln!("guvontsira: {reason}\ntry guvontsira --help");
                ExitCode::from(2)
            }
            Failure::Input(reason) => {
                eprintln!("{reason}");
                ExitCode::FAILURE
            }
            // Who reads has enough, as `head` after its ten lines.
            Failure::Output(error) if error.kind() == io::ErrorKind::BrokenPipe => {
                ExitCode::SUCCESS
            }
            Failure::Output(error) => {
                eprintln!("guvontsira: cannot write: {error}");
                ExitCode::FAILURE
            }
        }
    }
}
