//! The writers and the proved programs, started as their own processes.
use crate::kinds::Kind;
use std::path::{Path, PathBuf};
use std::process::{Command, Output};

pub struct Runner {
    /// Where the writers stand, and where the programs.
    pub writers: PathBuf,
    pub programs: PathBuf,
    /// What a program is started with: an emulator where the machine needs one.
    pub words: Vec<String>,
    /// A folder for the files of cases.
    pub folder: PathBuf,
}

impl Runner {
    /// What the kind's writer prints of these words.
    pub fn write(&self, kind: &Kind, words: &[&str]) -> Result<String, String> {
        let mut writer = Command::new(self.writers.join(kind.name));
        let output = output(writer.args(words))?;
        if !output.status.success() {
            return Err(String::from_utf8_lossy(&output.stderr).into_owned());
        }
        Ok(text(&output.stdout))
    }

    /// What the program prints of a file of cases. It has no status of its own.
    pub fn replay(&self, kind: &Kind, cases: &Path) -> Result<String, String> {
        let program = self.programs.join(kind.program);
        let mut command = match self.words.split_first() {
            Some((first, rest)) => {
                let mut command = Command::new(first);
                command.args(rest).arg(program);
                command
            }
            None => Command::new(program),
        };
        let name = cases.file_name().expect("a file of cases has a name");
        let output = output(command.arg(name).current_dir(&self.folder))?;
        Ok(text(&output.stdout))
    }

    /// Whether a case of the file differs.
    pub fn differs(&self, kind: &Kind, cases: &Path) -> Result<bool, String> {
        let answer = self.replay(kind, cases)?;
        Ok(!answer.lines().any(|line| line == "differing 0"))
    }

    pub fn file(&self, name: &str) -> PathBuf {
        self.folder.join(name)
    }
}

fn output(command: &mut Command) -> Result<Output, String> {
    let name = command.get_program().to_string_lossy().into_owned();
    command.output().map_err(|fault| format!("{name}: {fault}"))
}

fn text(bytes: &[u8]) -> String {
    String::from_utf8_lossy(bytes).into_owned()
}
