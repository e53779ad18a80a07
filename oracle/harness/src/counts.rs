//! How often each class of input was met, so that inputs which have become too plain show.

use crate::text::Difference;

/// From so many rounds on each class has to be met in them.
pub const ENOUGH: u64 = 10_000;

/// A class's name, and whether an input is of it.
pub type Class = (&'static str, bool);

#[derive(Default)]
pub struct Counts {
    pub inputs: u64,
    classes: Vec<(&'static str, u64)>,
}

impl Counts {
    /// Counts an input, by the same classes each time.
    pub fn add(&mut self, classes: &[Class]) {
        self.inputs += 1;
        self.classes.resize(classes.len(), ("", 0));
        for (met, (name, is)) in self.classes.iter_mut().zip(classes) {
            *met = (name, met.1 + u64::from(*is));
        }
    }

    /// A class that was not met says that the inputs have become too plain.
    pub fn all(&self, call: &str, inputs: &str) -> Result<(), Difference> {
        let not_met = match self.inputs {
            0 => Some("any"),
            _ => self.missed(),
        };
        match not_met {
            None => Ok(()),
            Some(name) => Err(Difference::in_call(call)
                .row("inputs", inputs)
                .row("not met", name)),
        }
    }

    fn missed(&self) -> Option<&'static str> {
        let missed = self.classes.iter().find(|(_, count)| *count == 0);
        missed.map(|(name, _)| *name)
    }

    pub fn print(&self) {
        for (name, count) in &self.classes {
            println!("{count:>12}  {name}");
        }
    }
}
