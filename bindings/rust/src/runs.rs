//! A reader of a note.

use crate::{Note, Place, Refusal};

/// Runs of a note from a place on, by [`Note::runs`]. Joined they are the text from there.
#[derive(Clone, Debug)]
pub struct Runs<'n> {
    note: &'n Note<'n>,
    place: Place,
    /// The run that showed that the place is one.
    first: Option<&'n str>,
}

impl<'n> Runs<'n> {
    pub(crate) fn new(note: &'n Note<'n>, place: Place) -> Result<Runs<'n>, Refusal> {
        let first = Some(note.run(place)?);
        Ok(Runs { note, place, first })
    }
}

impl<'n> Iterator for Runs<'n> {
    type Item = &'n str;

    fn next(&mut self) -> Option<&'n str> {
        let run = match self.first.take() {
            Some(run) => run,
            None => self.note.run(self.place).ok()?,
        };
        self.place.0 += run.chars().count();
        (!run.is_empty()).then_some(run)
    }
}
