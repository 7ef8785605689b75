//! The lines of the tables: a name, the call, what it runs on, and the targets at n = 3, 4 and 5.
use crate::plans::{self, Plan};
use crate::whole;

#[derive(Clone, Copy)]
pub enum Call {
    TakeAndGive,
    Take,
    Next,
    Test,
    Insert,
    Remove,
    Run,
    RunAt,
    GiveRun,
    GiveRunOld,
    /// check and image, which the crate has not
    Whole(whole::Call),
}

pub struct Line {
    /// without spaces, for the files between the modes
    pub id: &'static str,
    pub name: &'static str,
    pub call: Call,
    pub plan: fn(usize) -> Plan,
    pub targets: Option<[f64; 3]>,
}

impl Line {
    /// Whether a turn may follow a turn without the map being set back, each doing what the first did: the map is only read or the turn
    /// restores it; or the words are written whatever they were.
    pub fn repeats(&self) -> bool {
        !matches!(self.call, Call::Take | Call::Run | Call::RunAt | Call::GiveRun | Call::GiveRunOld)
    }

    /// Whether a turn leaves another map.
    pub fn changes(&self) -> bool {
        !self.repeats() || matches!(self.call, Call::Insert | Call::Remove)
    }
}

const fn line(id: &'static str, name: &'static str, call: Call, plan: fn(usize) -> Plan, targets: Option<[f64; 3]>) -> Line {
    Line {
        id,
        name,
        call,
        plan,
        targets,
    }
}

const fn at_most(target: f64) -> Option<[f64; 3]> {
    Some([target; 3])
}

/// The lines beside the crate, at n = 3, 4 and 5.
#[rustfmt::skip]
pub const LINES: [Line; 26] = [
    line("half", "take and give back, half full", Call::TakeAndGive, plans::lowest_of_half, at_most(1.0)),
    line("few", ".. nearly full", Call::TakeAndGive, plans::lowest_of_few, at_most(1.0)),
    line("only", ".. the only free position", Call::TakeAndGive, plans::the_only_one, at_most(1.2)),
    line("at-key", "look-up, at the key", Call::Next, plans::at_the_key, at_most(1.4)),
    line("next-word", ".. in the next word", Call::Next, plans::in_the_next_word, at_most(1.6)),
    line("far", ".. far", Call::Next, plans::far, at_most(1.0)),
    line("test", "test", Call::Test, plans::any_key, at_most(1.0)),
    line("insert-20", "insert 20", Call::Insert, plans::ranges_of_20, at_most(0.95)),
    line("remove-20", "remove 20", Call::Remove, plans::ranges_of_20, at_most(0.95)),
    line("insert-half", "insert half the map", Call::Insert, plans::range_of_half, Some([0.10, 0.02, 0.02])),
    line("remove-half", "remove half the map", Call::Remove, plans::range_of_half, Some([0.10, 0.02, 0.02])),
    line("run-1", "run of 1, all free", Call::Run, plans::run_of_1, None),
    line("run-64", "run of 64, fragmented", Call::Run, plans::run_of_64, at_most(0.15)),
    line("run-64-by-16", ".. aligned to 16", Call::Run, plans::run_of_64_by_16, at_most(0.15)),
    line("run-1000", "run of 1,000, fragmented", Call::Run, plans::run_of_1000, at_most(0.15)),
    line("run-1000-by-64", ".. aligned to 64", Call::Run, plans::run_of_1000_by_64, at_most(0.15)),
    line("run-64-at", "run of 64 at a base, all free", Call::RunAt, plans::runs_at, at_most(0.15)),
    line("old-64", "give back a run of 64, the crate's way", Call::GiveRunOld, plans::runs_to_give, at_most(0.95)),
    line("old-half", ".. half the map", Call::GiveRunOld, plans::half_to_give, at_most(0.50)),
    line("give-64", "give back a run of 64, all or nothing", Call::GiveRun, plans::runs_to_give, None),
    line("give-half", ".. half the map", Call::GiveRun, plans::half_to_give, None),
    line("insert-64", "insert the same 64", Call::Insert, plans::runs_to_insert, None),
    line("insert-taken", ".. half the map", Call::Insert, plans::half_to_insert, None),
    line("check", "check of the whole map *", Call::Whole(whole::Call::Check), plans::whole, None),
    line("write", "image written *", Call::Whole(whole::Call::Write), plans::whole, None),
    line("read", "image read *", Call::Whole(whole::Call::Read), plans::whole, None),
];

/// The lines of LINES that do the same to the same maps: a run given back all or nothing, the crate's way, and inserted.
pub const GIVEN: [(&str, [&str; 3]); 2] = [
    ("64 positions", ["give-64", "old-64", "insert-64"]),
    ("half the map", ["give-half", "old-half", "insert-taken"]),
];

/// The lines of the table of growth, beside the crate at n = 1 to 6.
#[rustfmt::skip]
pub const GROWTH: [Line; 3] = [
    line("grow-take", "take, half full", Call::Take, plans::four_takes, None),
    line("grow-next", "look-up at the key, half full", Call::Next, plans::at_the_key, None),
    line("grow-run", "run of 64, all free", Call::Run, plans::first_run, None),
];

/// A run of one position and a single take, ours alone, at n = 1 to 7.
#[rustfmt::skip]
pub const ONES: [Line; 2] = [
    line("one-run", "run of 1, all free", Call::Run, plans::run_of_1, None),
    line("one-take", "take, all free", Call::Take, plans::take_of_all, None),
];

/// Every line with each n at which both sides are measured.
pub fn beside() -> impl Iterator<Item = (&'static Line, usize)> {
    let growth = GROWTH.iter().flat_map(|line| (1..=6).map(move |n| (line, n)));
    LINES.iter().flat_map(|line| (3..=5).map(move |n| (line, n))).chain(growth)
}

/// Every line with each n at which ours is measured alone.
pub fn alone() -> impl Iterator<Item = (&'static Line, usize)> {
    ONES.iter().flat_map(|line| (1..=7).map(move |n| (line, n)))
}
