//! How many files have each of some things.

#[derive(Default)]
pub struct Counts(Vec<(&'static str, usize)>);

impl Counts {
    pub fn count(&mut self, thing: &'static str, has: bool) {
        match self.0.iter_mut().find(|(name, _)| *name == thing) {
            Some((_, files)) => *files += usize::from(has),
            None => self.0.push((thing, usize::from(has))),
        }
    }

    /// At least so many have each.
    pub fn print(&self, least: usize) {
        for (thing, files) in &self.0 {
            println!("{files:6} {thing}");
        }
        let rare = self.0.iter().find(|(_, files)| *files < least);
        assert_eq!(rare, None, "too few");
    }
}
