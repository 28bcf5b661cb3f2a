//! The program as a tree, read from its entries in prefix order.

use crate::entry::Entry;
use crate::rules::Bounds;

#[derive(Clone, Debug)]
pub struct Transformation {
    pub place: usize,
    pub action: Action,
}

type Part = Box<Transformation>;

#[derive(Clone, Debug)]
pub enum Action {
    Source,
    Nothing,
    Text(Vec<u8>),
    Tag(Vec<u8>),
    Slot(u8),
    Contents,
    Within(Part),
    AndThen(Part, Part),
    Beside(Part, Part),
    Each(Part),
    Choose(Box<Test>, Part, Part),
    Bind(u8, Part),
}

#[derive(Clone, Debug)]
pub struct Test {
    pub place: usize,
    pub question: Question,
}

#[derive(Clone, Debug)]
pub enum Question {
    Equals(Part),
    Tagged(Vec<u8>),
    IsElement,
}

/// What lies between the root and the entry to be read.
#[derive(Clone, Debug, Default)]
pub struct Path {
    pub level: usize,
    pub eaches: usize,
    pub binds: usize,
    pub slots: Vec<u8>,
}

/// The whole program, or the place of its first fault.
pub fn read(entries: &[Entry], bounds: &Bounds) -> Result<Transformation, usize> {
    read_below(entries, &Path::default(), bounds)
}

/// Reads entries that stand below a path.
pub fn read_below(
    entries: &[Entry],
    path: &Path,
    bounds: &Bounds,
) -> Result<Transformation, usize> {
    let mut reader = Reader { entries, next: 0, bounds };
    let root = reader.transformation(path)?;
    if reader.next < entries.len() && !bounds.entries_may_be_left_over {
        return Err(reader.next);
    }
    Ok(root)
}

struct Reader<'a> {
    entries: &'a [Entry],
    next: usize,
    bounds: &'a Bounds,
}

impl Reader<'_> {
    fn transformation(&mut self, above: &Path) -> Result<Transformation, usize> {
        let (place, entry, path) = self.step(above)?;
        let action = match entry {
            Entry::Source => Action::Source,
            Entry::Nothing => Action::Nothing,
            Entry::Text(text) => Action::Text(text),
            Entry::Tag(tag) => Action::Tag(tag),
            Entry::Slot(slot) => Action::Slot(slot),
            Entry::Contents => Action::Contents,
            Entry::Within => Action::Within(self.part(&path)?),
            Entry::AndThen => Action::AndThen(self.part(&path)?, self.part(&path)?),
            Entry::Beside => Action::Beside(self.part(&path)?, self.part(&path)?),
            Entry::Each => Action::Each(self.part(&path)?),
            Entry::Choose => {
                let test = Box::new(self.test(&path)?);
                Action::Choose(test, self.part(&path)?, self.part(&path)?)
            }
            Entry::Bind(slot) => Action::Bind(slot, self.part(&path)?),
            Entry::Equals | Entry::Tagged(_) | Entry::IsElement => return Err(place),
        };
        Ok(Transformation { place, action })
    }

    fn part(&mut self, path: &Path) -> Result<Part, usize> {
        self.transformation(path).map(Box::new)
    }

    fn test(&mut self, above: &Path) -> Result<Test, usize> {
        let (place, entry, mut path) = self.step(above)?;
        if !self.bounds.tests_see_the_slots {
            path.slots.clear();
        }
        let question = match entry {
            Entry::Equals => Question::Equals(self.part(&path)?),
            Entry::Tagged(tag) => Question::Tagged(tag),
            Entry::IsElement => Question::IsElement,
            _ => return Err(place),
        };
        Ok(Test { place, question })
    }

    /// The next entry with its place and the path that includes it, if it keeps the bounds.
    fn step(&mut self, above: &Path) -> Result<(usize, Entry, Path), usize> {
        let place = self.next;
        let entry = self.entries.get(place).ok_or(self.missing())?.clone();
        let mut path = above.clone();
        path.level += 1;
        match entry {
            Entry::Each => path.eaches += 1,
            Entry::Bind(slot) => {
                path.binds += 1;
                path.slots.push(slot);
            }
            _ => {}
        }
        if !self.keeps_bounds(&entry, &path) {
            return Err(place);
        }
        self.next += 1;
        Ok((place, entry, path))
    }

    /// The place of an entry that is missing: the number of lines.
    fn missing(&self) -> usize {
        match self.bounds.missing_entry_is_behind_the_last {
            true => self.entries.len(),
            false => self.entries.len().saturating_sub(1),
        }
    }

    fn keeps_bounds(&self, entry: &Entry, path: &Path) -> bool {
        let bound = match entry {
            Entry::Slot(slot) => path.slots.contains(slot),
            _ => true,
        };
        path.level <= self.bounds.levels
            && path.eaches <= self.bounds.eaches
            && path.binds <= self.bounds.binds
            && bound
    }
}
