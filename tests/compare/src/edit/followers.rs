//! Where marks must stand by the chars that follow them. Each char has a number of its own, given
//! when it enters the note. The chars behind a mark when it is set follow it, and so do those of a
//! piece that comes directly behind a follower. The mark stands directly before its first surviving
//! follower, or at the end.

use notes::edits::Edit;
use notes::marks::Marks;

/// Marks by their numbers, a bit each.
type Set = [u64; 4];

pub struct Followers {
    /// The numbers of the note's chars, in their order.
    order: Vec<usize>,
    /// By a char's number, the marks that it follows.
    follows: Vec<Set>,
}

impl Followers {
    /// Of a note of so many chars. A mark that is live counts as set where it stands.
    pub fn of(chars: usize, marks: &Marks) -> Followers {
        let mut followers = Followers {
            order: (0..chars).collect(),
            follows: vec![[0; 4]; chars],
        };
        for (mark, place) in marks.places.iter().enumerate() {
            if let Some(place) = place {
                followers.set(mark, *place);
            }
        }
        followers
    }

    pub fn set(&mut self, mark: usize, place: usize) {
        let (word, bit) = (mark / 64, 1 << (mark % 64));
        for (at, &number) in self.order.iter().enumerate() {
            let set = &mut self.follows[number][word];
            *set = if at < place { *set & !bit } else { *set | bit };
        }
    }

    pub fn edit(&mut self, edit: &Edit) {
        let (start, end) = match *edit {
            Edit::Insert { place, .. } => (place, place),
            Edit::Remove { start, end } => (start, end),
        };
        let before = start.checked_sub(1).map(|at| self.order[at]);
        let joins = before.map_or([0; 4], |number| self.follows[number]);
        let first = self.follows.len();
        self.follows.resize(first + edit.new_chars(), joins);
        self.order.splice(start..end, first..self.follows.len());
    }

    /// Tells a mark that stands elsewhere.
    pub fn hold(&self, marks: &Marks) -> Result<(), String> {
        let mut due = vec![self.order.len(); marks.places.len()];
        let mut left = [!0; 4];
        for (at, &number) in self.order.iter().enumerate() {
            for (word, left) in left.iter_mut().enumerate() {
                let mut new = *left & self.follows[number][word];
                *left &= !new;
                while new != 0 {
                    due[64 * word + new.trailing_zeros() as usize] = at;
                    new &= new - 1;
                }
            }
        }
        for (mark, place) in marks.places.iter().enumerate() {
            if place.map_or(false, |place| place != due[mark]) {
                let first = due[mark];
                return Err(format!(
                    "mark {mark} is at {place:?}, its first follower at {first}"
                ));
            }
        }
        Ok(())
    }
}
