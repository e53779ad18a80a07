//! Makes an input smaller while the two sides still differ on it.

use crate::{answers::Answer, port::VALUE_WIDTH};

/// Drops bytes, then lowers them, until neither helps.
pub fn bytes(start: &[u8], differs: impl Fn(&[u8]) -> bool) -> Vec<u8> {
    let mut best = start.to_vec();
    while drop_some(&mut best, &differs) || lower_one(&mut best, &differs) {}
    best
}

/// Takes out the longest run that can go: whole halves first, single bytes last.
fn drop_some(best: &mut Vec<u8>, differs: &impl Fn(&[u8]) -> bool) -> bool {
    let mut run = best.len();
    while run > 0 {
        for start in 0..=best.len() - run {
            let mut shorter = best.clone();
            shorter.drain(start..start + run);
            if differs(&shorter) {
                *best = shorter;
                return true;
            }
        }
        run /= 2;
    }
    false
}

/// Takes out runs of items, all of them first and single ones last. Runs of one length do not overlap, so that there
/// are about twice as many questions as items.
pub fn runs<T: Clone>(start: &[T], differs: impl Fn(&[T]) -> bool) -> Vec<T> {
    let mut best = start.to_vec();
    let mut run = best.len();
    while run > 0 {
        let mut place = 0;
        while place < best.len() {
            let mut shorter = best.clone();
            shorter.drain(place..best.len().min(place + run));
            match differs(&shorter) {
                true => best = shorter,
                false => place += run,
            }
        }
        run /= 2;
    }
    best
}

/// Gives the first byte that allows it the least value that still differs.
fn lower_one(best: &mut [u8], differs: &impl Fn(&[u8]) -> bool) -> bool {
    for place in 0..best.len() {
        let old = best[place];
        for less in 0..old {
            best[place] = less;
            if differs(best) {
                return true;
            }
        }
        best[place] = old;
    }
    false
}

/// Takes away powers of two, large ones first, until none can go.
pub fn number(start: u64, differs: impl Fn(u64) -> bool) -> u64 {
    let mut best = start;
    while let Some(less) = smaller(best).find(|&less| differs(less)) {
        best = less;
    }
    best
}

fn smaller(from: u64) -> impl Iterator<Item = u64> {
    let steps = (0..64).rev().map(|bit| 1 << bit);
    steps.filter_map(move |step| from.checked_sub(step))
}

/// A call of a writer of frames that can be made smaller.
pub trait Call: Clone + PartialEq {
    /// What the two sides answer, where they differ in anything.
    fn differing(&self) -> Option<[Answer; 2]>;
    /// The length of the frame that its records stand for, whatever the limit and the room are.
    fn length(&self) -> Option<usize>;
    /// The same call with fewer records, with fewer numbers behind them, with null for a value, or of a plainer kind.
    fn with_less(&self) -> Vec<Self>;
    fn fields(&mut self) -> Fields<'_>;

    fn differs(&self) -> bool {
        self.differing().is_some()
    }

    /// The call after a change.
    fn with(&self, change: impl FnOnce(Fields)) -> Self {
        let mut changed = self.clone();
        change(changed.fields());
        changed
    }
}

pub struct Fields<'a> {
    /// FIN and ABORT.
    pub flags: [&'a mut bool; 2],
    pub limit: &'a mut u32,
    pub buffer: &'a mut Vec<u8>,
    pub room: &'a mut usize,
    /// Ids, counts and tables.
    pub numbers: Vec<&'a mut u64>,
}

/// Goes on until nothing helps any more: with fewer bytes a number may become lower, and the other way round.
pub fn call<C: Call>(start: &C) -> C {
    let mut best = start.clone();
    loop {
        let less = smaller_call(best.clone());
        if less == best {
            return best;
        }
        best = less;
    }
}

/// Records go first, then numbers are lowered, and then bytes that no record points at any more can go.
fn smaller_call<C: Call>(mut best: C) -> C {
    let next = |best: &C| {
        best.with_less()
            .into_iter()
            .find_map(|less| still(less, best))
    };
    while let Some(less) = next(&best) {
        best = less;
    }
    for place in 0..best.fields().numbers.len() {
        let old = *best.fields().numbers[place];
        let with = |n| still(best.with(|mut fields| *fields.numbers[place] = n), &best);
        best = with(number(old, |n| with(n).is_some())).expect("it differed");
    }
    let old = best.fields().buffer.clone();
    let with = |shorter: &[u8]| still(best.with(|fields| *fields.buffer = shorter.to_vec()), &best);
    best = with(&bytes(&old, |shorter| with(shorter).is_some())).expect("it differed");
    // FIN alone and a limit that no frame is over say that neither has a part in the difference.
    let fin_alone = best.with(|fields| [*fields.flags[0], *fields.flags[1]] = [true, false]);
    best = if_it_differs(fin_alone, best);
    let unlimited = best.with(|fields| *fields.limit = u32::MAX);
    best = if_it_differs(unlimited, best);
    // Both sides have to answer as before, or 11 would take the place of what differs.
    let (old, answers) = (*best.fields().room as u64, best.differing());
    let with = |room| best.with(|fields| *fields.room = room as usize);
    with(number(old, |room| with(room).differing() == answers))
}

/// The smaller call, where it differs still: as it is, or with a limit and a room that are as much shorter as its frame.
fn still<C: Call>(less: C, than: &C) -> Option<C> {
    if less.differs() {
        return Some(less);
    }
    let shorter = than.length()?.checked_sub(less.length()?)?;
    let fitted = less.with(|fields| {
        *fields.limit = fields.limit.saturating_sub(shorter as u32);
        *fields.room = fields.room.saturating_sub(shorter);
    });
    fitted.differs().then_some(fitted)
}

fn if_it_differs<C: Call>(plainer: C, best: C) -> C {
    if plainer.differs() { plainer } else { best }
}

/// A table of records of `width` numbers, and how many count: without each one, without what stands behind them, and with
/// null for the value of each.
pub fn table(numbers: &[u64], count: u64, width: usize) -> Vec<(Vec<u64>, u64)> {
    let rows = (numbers.len() / width).min(usize::try_from(count).unwrap_or(usize::MAX));
    let without = |row: usize| [&numbers[..row * width], &numbers[(row + 1) * width..]].concat();
    let mut all: Vec<_> = (0..rows).map(|row| (without(row), count - 1)).collect();
    if rows * width < numbers.len() {
        all.push((numbers[..rows * width].to_vec(), count));
    }
    all.extend(
        with_null(numbers, width)
            .into_iter()
            .map(|plainer| (plainer, count)),
    );
    all
}

/// The table with null in the place of each value that is none. A value is the last numbers of its record.
pub fn with_null(numbers: &[u64], width: usize) -> Vec<Vec<u64>> {
    let ends = (width..=numbers.len()).step_by(width);
    let valued = ends.filter(|end| numbers[end - VALUE_WIDTH..*end] != [0; VALUE_WIDTH]);
    let plainer = valued.map(|end| {
        let mut plainer = numbers.to_vec();
        plainer[end - VALUE_WIDTH..end].fill(0);
        plainer
    });
    plainer.collect()
}
