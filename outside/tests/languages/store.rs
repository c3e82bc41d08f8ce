// The store of store.c.
use std::fs::{self, File};
use std::io::{Read, Write};

fn main() -> std::io::Result<()> {
    let mut file = File::create("new")?;
    file.write_all(b"value")?;
    file.set_len(4)?;
    file.sync_all()?;
    drop(file);
    fs::rename("new", "value")?;
    File::open(".")?.sync_all()?;
    let mut bytes = [0; 4];
    File::open("value")?.read_exact(&mut bytes)?;
    assert_eq!(&bytes, b"valu");
    fs::hard_link("value", "other")?;
    std::os::unix::fs::symlink("value", "way")?;
    fs::remove_file("old")?;
    fs::create_dir("made")?;
    fs::remove_dir("made")
}
