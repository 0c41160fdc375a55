//! Makes what the program `damaged_files` is run on: job files at every limit and just beyond it, and damaged ones.
//! `damaged FOLDER` writes FOLDER/data (the files), FOLDER/args (their names) and FOLDER/stdout: each name, and what the
//! oracle beside this program answers for the file.

mod edges;
mod faults;
mod text;

use std::{
    env,
    error::Error,
    fs::{self, File},
    io::Write,
    path::Path,
    process::Command,
};

/// A file's name and its bytes.
type Named = (String, Vec<u8>);

fn main() -> Result<(), Box<dyn Error>> {
    let folder = env::args().nth(1).ok_or("usage: damaged FOLDER")?;
    let folder = Path::new(&folder);
    let data = folder.join("data");
    let oracle = env::current_exe()?.with_file_name("oracle");

    if data.exists() {
        fs::remove_dir_all(&data)?;
    }

    fs::create_dir_all(&data)?;

    let mut names = File::create(folder.join("args"))?;
    let mut answers = File::create(folder.join("stdout"))?;

    for (name, bytes) in edges::files().into_iter().chain(faults::files()) {
        let path = data.join(&name);

        fs::write(&path, bytes)?;
        writeln!(names, "{name}")?;
        writeln!(answers, "{name}")?;

        let run = Command::new(&oracle)
            .arg("shuttle")
            .stdin(File::open(&path)?)
            .output()?;

        if !run.status.success() {
            return Err(format!("the oracle failed on {name}").into());
        }

        answers.write_all(&run.stdout)?;
    }

    Ok(())
}
