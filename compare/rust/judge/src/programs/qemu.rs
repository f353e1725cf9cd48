//! A program under QEMU. It makes the same calls there, and Linux answers them: descriptors 4 and 6 are files that it
//! writes, and 5 is a file with the inputs it will ask for, one behind the other, each with its length before it.

use super::{list::Input, outcome::Outcome};
use std::{fs, path::Path, process::Command};

pub fn run(executable: &Path, inputs: &[Input]) -> Outcome {
    let file = |descriptor: u32| executable.with_extension(descriptor.to_string());
    let asked: Vec<u8> = inputs.iter().flat_map(announced).collect();
    fs::write(file(5), asked).expect("the inputs' file");
    // The processor is that of the single instructions (`qemu/driver.rs`). Only a shell opens descriptors by their number.
    let ended = Command::new("sh")
        .args(["-c", r#"exec qemu-mips64 -cpu 5KEf "$0" 4>"$1" 5<"$2" 6>"$3""#])
        .args([executable, &file(4), &file(5), &file(6)])
        .output()
        .expect("sh runs");
    let code = ended.status.code().unwrap_or_else(|| panic!("{}: {}", executable.display(), ended.status));
    let keys: Vec<u8> = inputs.iter().flat_map(|input| input.key).collect();
    assert!(fs::read(file(6)).unwrap() == keys, "{}: other keys than listed", executable.display());
    Outcome { out: ended.stdout, err: ended.stderr, hints: fs::read(file(4)).unwrap(), code: code as u32 }
}

fn announced(input: &Input) -> Vec<u8> {
    let length = (input.bytes.len() as u64).to_be_bytes();
    [&length, input.bytes.as_slice()].concat()
}
