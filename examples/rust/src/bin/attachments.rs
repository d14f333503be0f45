//! Writes all attachments of a message into a folder, each under its identifier and its name: attachments FILE MESSAGE FOLDER
//!
//! The bytes are written from where they lie in the file. What embeds a message is only listed.

use pst_verify::{decode, Attachment, Store};
use std::error::Error;
use std::fs::File;
use std::io::Write;
use std::path::Path;
use std::{env, fs, process};

/// A name with no character that a file name may not have.
fn file_name(name: Option<&str>) -> String {
    let allowed = |c: char| {
        if c < ' ' || c == '/' || c == '\\' {
            '_'
        } else {
            c
        }
    };
    name.unwrap_or("unnamed").chars().map(allowed).collect()
}

fn write_attachment(attachment: &Attachment, folder: &Path) -> Result<(), Box<dyn Error>> {
    let name = file_name(attachment.name());
    match attachment.data() {
        Some(pieces) => {
            let mut out = File::create(folder.join(format!("{}-{name}", attachment.nid)))?;
            for piece in pieces.iter() {
                out.write_all(piece)?;
            }
            println!("{} {name} {}", attachment.nid, pieces.len());
        }
        None => println!("{} {name} none", attachment.nid),
    }
    Ok(())
}

fn run(path: &str, message: &str, folder: &str) -> Result<(), Box<dyn Error>> {
    let mut bytes = fs::read(path)?;
    decode(&mut bytes)?;
    for attachment in &Store::new(&bytes).props(message)?.attachments {
        write_attachment(attachment, Path::new(folder))?;
    }
    Ok(())
}

fn main() {
    let words: Vec<String> = env::args().collect();
    if words.len() != 4 {
        eprintln!("usage: {} FILE MESSAGE FOLDER", words[0]);
        process::exit(2);
    }
    if let Err(error) = run(&words[1], &words[2], &words[3]) {
        eprintln!("{error}");
        process::exit(1);
    }
}
