//! The list of programs beside their sources: name, where rules 0 and rules 1 part, and the inputs.

use std::{fs, path::Path};

pub struct Listed {
    pub name: String,
    /// The levels of optimisation at which rules 0 and rules 1 give different outputs.
    pub differs_at: Vec<String>,
    /// In the order in which the program asks for them.
    pub inputs: Vec<Input>,
}

pub struct Input {
    pub key: [u8; 32],
    pub bytes: Vec<u8>,
}

/// A key is the input's name, filled up with zeros.
fn input(folder: &Path, name: &str) -> Input {
    let mut key = [0; 32];
    key[..name.len()].copy_from_slice(name.as_bytes());
    let file = folder.join("inputs").join(name);
    let bytes = fs::read(&file).unwrap_or_else(|error| panic!("{}: {error}", file.display()));
    Input { key, bytes }
}

pub fn read(folder: &Path) -> Vec<Listed> {
    let text = fs::read_to_string(folder.join("list")).expect("the list of programs");
    let lines = text.lines().filter(|line| !line.starts_with('#'));
    lines.map(|line| listed(folder, line)).collect()
}

fn listed(folder: &Path, line: &str) -> Listed {
    let mut parts = line.split_whitespace();
    let name = parts.next().expect("a name").to_string();
    let levels = parts.next().expect("levels, or a dash");
    let differs_at = levels.split(',').filter(|level| *level != "-").map(str::to_string).collect();
    Listed { name, differs_at, inputs: parts.map(|name| input(folder, name)).collect() }
}
