//! Times our functions against the Rust's, and those that the Rust has not against others, on the
//! same commands and in one process. compare/speed builds and starts it, and says how it is
//! measured.
//!
//! Exit status 0: every answer is the right one by bits, and no figure that is held is over its
//! limit.

use std::process::ExitCode;

use relay_mix_quad::QuadMixer;

use comparing::capability::NOTHING;
use comparing::timed_commands::{Asked, Commands, Set, COMMANDS, PART, SEED, SETS};
use comparing::timing::{Against, Timing};
use rooms::CAPABILITIES;

/// How often each part of the commands is timed on each side.
const ROUNDS: usize = 25;

/// What the rooms have to be timed. It is picked out by the compiler, so that nothing else of the
/// rooms is in this program: where the crates are optimized together, a function of the Rust's then
/// has the one caller that times it.
const SPEEDS: [fn(&Commands) -> Vec<Timing>; CAPABILITIES.len()] = {
    let mut speeds = [NOTHING.speed; CAPABILITIES.len()];
    let mut i = 0;
    while i < speeds.len() {
        speeds[i] = CAPABILITIES[i].speed;
        i += 1;
    }
    speeds
};

fn main() -> ExitCode {
    if std::env::args().len() != 1 {
        eprintln!("speed: it takes no words");
        return ExitCode::from(2);
    }
    println!("{COMMANDS} commands in each set, seed {SEED}");
    for set in &SETS {
        let (told, whole) = (set.told(), 100 * fitting(set) / COMMANDS);
        println!("{told}; thrust-floor scales nothing of {whole} % of them");
    }
    println!("the best of {ROUNDS} rounds for each {PART} commands; ns for each call");
    let mut lines = lines();
    for line in &lines {
        if !line.timing.pair.agree() {
            println!("{} {} differs", line.timing.name, line.set);
            return ExitCode::FAILURE;
        }
    }
    for round in 0..ROUNDS {
        for line in &mut lines {
            line.timing.pair.round(round % 2 == 1);
        }
    }
    if show(&lines) {
        ExitCode::SUCCESS
    } else {
        ExitCode::FAILURE
    }
}

/// How many commands of a set the Rust's thrust-floor gives all of their torque.
fn fitting(set: &Set) -> usize {
    let fits = |c: &Asked| {
        let mut mixer = QuadMixer::new();
        mixer.mix_thrust_floor(*c.torque(), c.thrust(), c.floor);
        mixer.last_torque_scale() == 1.0
    };
    set.commands().iter().filter(|c| fits(c)).count()
}

// ---- the lines

/// A function of ours on a set.
struct Line {
    set: &'static str,
    timing: Timing,
}

/// A line for each function and set: first those whose figure is of the first function's kind, then
/// those of the next kind.
fn lines() -> Vec<Line> {
    let [ordinary, saturating] = SETS.map(|set| {
        let commands = set.commands();
        let timings = SPEEDS.iter().flat_map(move |speed| speed(&commands));
        timings.map(move |timing| Line {
            set: set.name,
            timing,
        })
    });
    let turns = ordinary.zip(saturating);
    let mut lines: Vec<Line> = turns.flat_map(|(a, b)| [a, b]).collect();
    let kinds = kinds(&lines);
    lines.sort_by_key(|line| kinds.iter().position(|by| *by == line.against().by));
    lines
}

/// What the figures are called, in the order in which they come.
fn kinds(lines: &[Line]) -> Vec<&'static str> {
    let mut kinds = Vec::new();
    for line in lines {
        let by = line.against().by;
        if !kinds.contains(&by) {
            kinds.push(by);
        }
    }
    kinds
}

impl Line {
    fn against(&self) -> Against {
        self.timing.against
    }

    fn show(&self) {
        let Timing { name, pair, .. } = &self.timing;
        let [ours, others] = pair.best();
        let Against { other, by, .. } = self.against();
        println!(
            "{name} {} rattle {ours:.2} {other} {others:.2} {by} {:.2}",
            self.set,
            self.timing.figure()
        );
    }
}

/// Prints the lines, and says whether nothing that is held is over its limit.
fn show(lines: &[Line]) -> bool {
    for line in lines {
        line.show();
    }
    let each = kinds(lines).into_iter();
    each.fold(true, |good, by| show_worst(lines, by) && good)
}

/// Prints the worst figure of a kind, of those that are held to a limit, and says whether none is
/// over its limit.
fn show_worst(lines: &[Line], by: &str) -> bool {
    let (mut worst, mut good) = (0.0, true);
    for line in lines.iter().filter(|line| line.against().by == by) {
        if let Some(limit) = line.against().limit {
            let figure = line.timing.figure();
            worst = f64::max(worst, figure);
            good &= figure <= limit;
        }
    }
    println!("worst {by} {worst:.2}");
    good
}
