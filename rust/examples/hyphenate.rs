use tteolmigu::{Exceptions, Ground, Margins, Table, PACK_ROOM};

fn main() -> Result<(), Ground> {
    let mut room = [0; PACK_ROOM];
    let table = Table::pack(b"hen5at\nhy3ph\n", &mut room)?;
    for word in ["hyphenation", "a1"] {
        match table.hyphenate(Margins::USUAL, word.as_bytes(), Exceptions::NONE) {
            Ok(breaks) => println!("{}: {:?}", word, breaks.iter()),
            Err(ground) => println!("{}: {}", word, ground),
        }
    }
    Ok(())
}
