//! The verdicts of all stores below a folder, in the order of their paths, by as many threads as there are processors:
//! verdicts FOLDER

use pst_verify::{answer, decode, Refusal};
use std::path::{Path, PathBuf};
use std::sync::atomic::{AtomicUsize, Ordering};
use std::sync::Mutex;
use std::{env, fs, io, process, thread};

/// The files below a folder that end in .pst.
fn find(folder: &Path, found: &mut Vec<PathBuf>) -> io::Result<()> {
    for entry in fs::read_dir(folder)? {
        let entry = entry?;
        let (kind, path) = (entry.file_type()?, entry.path());
        if kind.is_dir() {
            find(&path, found)?;
        } else if kind.is_file() && path.to_string_lossy().ends_with(".pst") {
            found.push(path);
        }
    }
    Ok(())
}

/// The status, and the line of the answer.
fn verdict(path: &Path) -> (u8, String) {
    let mut bytes = match fs::read(path) {
        Ok(bytes) => bytes,
        Err(error) => {
            eprintln!("{}: {error}", path.display());
            return (3, String::new());
        }
    };
    if decode(&mut bytes).is_err() {
        return (Refusal::Memory.status(), String::new());
    }
    let answer = answer(&["check", "-"], &bytes);
    let said = if answer.status == 0 {
        &answer.text
    } else {
        &answer.line
    };
    (
        answer.status,
        String::from_utf8_lossy(said).trim_end().to_string(),
    )
}

fn verdicts(paths: &[PathBuf]) -> Vec<(u8, String)> {
    let next = AtomicUsize::new(0);
    let all = Mutex::new(vec![(3, String::new()); paths.len()]);
    let work = || loop {
        let n = next.fetch_add(1, Ordering::Relaxed);
        match paths.get(n) {
            Some(path) => {
                let verdict = verdict(path);
                all.lock().expect("no thread panics")[n] = verdict;
            }
            None => break,
        }
    };
    let threads = thread::available_parallelism().map_or(1, usize::from);
    thread::scope(|scope| {
        for _ in 0..threads {
            scope.spawn(work);
        }
    });
    all.into_inner().expect("no thread panics")
}

fn main() {
    let words: Vec<String> = env::args().collect();
    if words.len() != 2 {
        eprintln!("usage: {} FOLDER", words[0]);
        process::exit(2);
    }
    let mut paths = Vec::new();
    if let Err(error) = find(Path::new(&words[1]), &mut paths) {
        eprintln!("{error}");
        process::exit(3);
    }
    paths.sort_by(|a, b| a.as_os_str().cmp(b.as_os_str()));
    for (path, (status, line)) in paths.iter().zip(verdicts(&paths)) {
        println!("{}\t{status}\t{line}", path.display());
    }
}
