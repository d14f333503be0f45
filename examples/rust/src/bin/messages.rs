//! A table of all messages of a store, as CSV: messages FILE

use pst_verify::{decode, Message, Store};
use std::collections::HashMap;
use std::error::Error;
use std::io::Write;
use std::{env, fs, io, process};

fn quoted(text: &str) -> String {
    format!("\"{}\"", text.replace('"', "\"\""))
}

fn row(message: &Message, names: &HashMap<String, String>) -> String {
    let name = |nid: &String| names.get(nid).unwrap_or(nid).clone();
    let folders: Vec<String> = message.folders.iter().map(name).collect();
    let maybe = |text: &Option<String>| text.as_deref().map(quoted).unwrap_or_default();
    [
        quoted(&message.nid),
        maybe(&message.sent),
        maybe(&message.sender),
        quoted(message.title()),
        message
            .size
            .map(|size| size.to_string())
            .unwrap_or_default(),
        quoted(&folders.join("; ")),
    ]
    .join(",")
}

fn run(path: &str) -> Result<(), Box<dyn Error>> {
    let mut bytes = fs::read(path)?;
    decode(&mut bytes)?;
    let store = Store::new(&bytes);
    let folders = store.folders()?.into_iter();
    let names = folders.filter_map(|it| Some((it.nid, it.name?))).collect();
    let mut out = io::BufWriter::new(io::stdout().lock());
    for message in store.messages()? {
        writeln!(out, "{}", row(&message, &names))?;
    }
    Ok(out.flush()?)
}

fn main() {
    let words: Vec<String> = env::args().collect();
    if words.len() != 2 {
        eprintln!("usage: {} FILE", words[0]);
        process::exit(2);
    }
    if let Err(error) = run(&words[1]) {
        eprintln!("{error}");
        process::exit(1);
    }
}
