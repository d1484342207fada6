//! Reads one peer's bytes from standard input as `east`, accepting `west`, and prints the tables, with the number of their entries, and the
//! entries that it holds at the end.

use peers::{Answer, Session, Store, READING_ROOM};
use std::io::{self, Read};

fn main() -> Result<(), Box<dyn std::error::Error>> {
    let mut store = Store::boxed();
    let mut session = Session::answerer(b"east", b"west")?;
    let mut room = [0; READING_ROOM];
    let mut piece = [0; 4096];
    while session.closed_with().is_none() {
        let len = io::stdin().read(&mut piece)?;
        if len == 0 {
            break;
        }
        let mut rest = &piece[..len];
        while !rest.is_empty() && session.closed_with().is_none() {
            let step = session.read(&mut store, rest, &mut room);
            rest = &rest[step.taken..];
            // a host sends step.reply to the peer here
            if let Answer::Refused { refusal, .. } = step.answer {
                println!("{}", step.answer);
                if step.taken == 0 {
                    return Err(refusal.into()); // offered again, the bytes would be refused again
                }
            }
        }
    }
    for table in store.tables() {
        let count = store.entries_of(table.place());
        println!("{} entries {count}", table.name().escape_ascii());
    }
    for entry in store.entries() {
        print!(
            "{} {:02X?}",
            entry.table().name().escape_ascii(),
            entry.key()
        );
        for (data_type, value) in entry.values() {
            print!(" {} {value:?}", data_type.name());
        }
        println!();
    }
    Ok(())
}
