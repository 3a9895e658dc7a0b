use std::ops::{Deref, DerefMut};
use std::path::Path;

use crate::embedded;
use crate::{Error, Registry};

/// A session in this process that shares its journal with other seats, which are opened together by [`seats`] or
/// [`kept_seats`]: it has the calls of [`Registry`]. Calls of different seats run at once, and wait for nothing of each other
/// but a sync of the file, so each thread takes a seat of its own. One that is dropped is closed.
///
/// A seat reads all that the others have entered before it answers: what a call accepted is there for each call that begins
/// once that one has returned.
pub struct Seat {
    registry: Registry,
    number: usize,
}

/// Opens 1 to 64 seats of one journal with room for so many entries, 1 to 65,536: these are commands and what searches
/// taught. Where the room is used up, commands are refused by `JournalFull`, and requests are answered as before.
///
/// The journal begins with that of the file `load`, or with none. No file gets it: [`Seat::journal`] tells it, and it is gone
/// with the last of its seats. [`kept_seats`] have a file.
pub fn seats(count: usize, load: Option<&Path>, entries: usize) -> Result<Vec<Seat>, Error> {
    numbered(embedded::open_seats(count, None, load, entries)?)
}

/// Opens seats as [`seats`] does, with a journal that they go on with, in a file that is made where it is not there: it has, for
/// good, whatever a reply tells or rests on before the call returns, and calls that wait for that at once share a sync. Where the
/// file can't be written, each seat answers [`Error::Ended`] from then on. It has its last line once all seats are closed.
pub fn kept_seats(count: usize, journal: &Path, entries: usize) -> Result<Vec<Seat>, Error> {
    numbered(embedded::open_seats(count, Some(journal), None, entries)?)
}

fn numbered(opened: Vec<embedded::Embedded>) -> Result<Vec<Seat>, Error> {
    Ok(opened.into_iter().enumerate().map(|(place, it)| Seat { registry: Registry::of(it), number: place + 1 }).collect())
}

impl Seat {
    /// Its number among the seats of its journal, from 1, as replies of races have it.
    pub fn number(&self) -> usize {
        self.number
    }

    /// How many entries of the journal the seat had read when it answered last, and 0 before. A command that was accepted
    /// counts, as the last. Where `ask` looks for the culprit of a refusal, that is answered, too.
    pub fn place(&self) -> u32 {
        self.registry.embedded_way().map_or(0, |it| it.place())
    }

    /// The journal with all that the seat has seen, as a file has it. Once no call of another seat is under way, that is the
    /// whole journal.
    pub fn journal(&self) -> Result<String, Error> {
        Ok(self.registry.embedded_way()?.journal()?)
    }

    /// Closes the seat; the others go on.
    pub fn close(self) -> Result<(), Error> {
        self.registry.close()
    }
}

impl Deref for Seat {
    type Target = Registry;

    fn deref(&self) -> &Registry {
        &self.registry
    }
}

impl DerefMut for Seat {
    fn deref_mut(&mut self) -> &mut Registry {
        &mut self.registry
    }
}
