//! note save TEXT, note show: keeps a text in the file `note` of the current folder. It says `saved` once the text lasts, `refused` if the old one stays, and
//! `in doubt` if it may be either.
//!
//! Its points are those of fail-rs. With FLAW=refuses_late it says `refused` where it fails behind the rename, of which nobody knows then whether it lasts.

use fail::{fail_point, FailScenario};
use std::fs::{self, File};
use std::io::{self, Write};

enum Failure {
    Refused(io::Error),
    InDoubt(io::Error),
}

fn has_flaw(name: &str) -> bool {
    std::env::var("FLAW").as_deref() == Ok(name)
}

fn write_new(text: &str) -> io::Result<()> {
    let mut file = File::create("note.new")?;
    file.write_all(text.as_bytes())?;
    fail_point!("note-after-write", |why: Option<String>| Err(io::Error::other(why.unwrap_or("after the write".to_string()))));
    file.sync_all()
}

fn sync_folder() -> io::Result<()> {
    File::open(".")?.sync_all()
}

fn save(text: &str) -> Result<(), Failure> {
    write_new(text).map_err(Failure::Refused)?;
    fail_point!("note-before-rename", text.ends_with('.'), |_| Err(Failure::Refused(io::Error::other("before the rename"))));
    fs::rename("note.new", "note").map_err(Failure::Refused)?;
    fail_point!("note-after-rename", |_| {
        let late = if has_flaw("refuses_late") { Failure::Refused } else { Failure::InDoubt };
        Err(late(io::Error::other("after the rename")))
    });
    sync_folder().map_err(Failure::InDoubt)
}

fn main() -> io::Result<()> {
    let scenario = FailScenario::setup();
    let words: Vec<String> = std::env::args().skip(1).collect();
    if words[0] == "show" {
        print!("{}", fs::read_to_string("note")?);
        return Ok(());
    }
    fail_point!("note-begin");
    match save(&words[1]) {
        Ok(()) => println!("saved"),
        Err(Failure::Refused(why)) => println!("refused: {why}"),
        Err(Failure::InDoubt(why)) => println!("in doubt: {why}"),
    }
    scenario.teardown();
    Ok(())
}
