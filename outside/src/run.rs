//! Options, tests and rounds.

use crate::faults;
use outside::lab::{Lab, Mismatch};
use outside::rng::Rng;

/// A named test.
pub struct Test {
    /// Its name.
    pub name: &'static str,
    /// What it does.
    pub body: fn(&mut Run) -> Result<(), Mismatch>,
}

/// What the command line asks for.
pub struct Options {
    /// The seed of all random rounds.
    pub seed: u64,
    /// How many times as many random rounds as usual.
    pub scale: f64,
    /// Only tests whose names begin so.
    pub only: Option<String>,
    /// Only this round of each random test.
    pub round: Option<u64>,
    /// A word list, as read.
    pub words: Option<Vec<u8>>,
    /// Somebody's pattern files, as read.
    pub patterns: Vec<Vec<u8>>,
    /// Workers, 1 or 2.
    pub threads: usize,
    /// Whether only names are wanted.
    pub list: bool,
}

const USAGE: &str = "usage: outside [--seed S] [--scale K] [--only NAME] [--round R] \
                     [--words FILE] [--patterns FILE] [--threads 1|2] [--list]";

/// Reads a number or says what is wrong.
fn number<T: std::str::FromStr>(name: &str, text: &str) -> Result<T, String> {
    text.parse()
        .map_err(|_| format!("{} isn't a number for {}\n{}", text, name, USAGE))
}

/// Reads a file or says what is wrong.
fn file(name: &str) -> Result<Vec<u8>, String> {
    std::fs::read(name).map_err(|why| format!("{}: {}", name, why))
}

impl Options {
    /// Reads the command line.
    pub fn read(mut arguments: impl Iterator<Item = String>) -> Result<Options, String> {
        let mut options = Options {
            seed: 20_260_101,
            scale: 1.0,
            only: None,
            round: None,
            words: None,
            patterns: Vec::new(),
            threads: 2,
            list: false,
        };
        while let Some(name) = arguments.next() {
            if name == "--list" {
                options.list = true;
                continue;
            }
            let value = arguments
                .next()
                .ok_or_else(|| format!("{} needs a value\n{}", name, USAGE))?;
            match name.as_str() {
                "--seed" => options.seed = number(&name, &value)?,
                "--scale" => options.scale = number(&name, &value)?,
                "--round" => options.round = Some(number(&name, &value)?),
                "--threads" => options.threads = number::<usize>(&name, &value)?.clamp(1, 2),
                "--only" => options.only = Some(value),
                "--words" => options.words = Some(file(&value)?),
                "--patterns" => options.patterns.push(file(&value)?),
                _ => return Err(format!("{} isn't known\n{}", name, USAGE)),
            }
        }
        Ok(options)
    }

    /// Whether a test is to be run.
    pub fn wants(&self, test: &str) -> bool {
        match &self.only {
            Some(only) => test.starts_with(only.as_str()),
            None => true,
        }
    }
}

/// One test while it runs.
pub struct Run<'a> {
    name: &'static str,
    options: &'a Options,
    worker: usize,
    lab: Lab,
    round: u64,
}

impl<'a> Run<'a> {
    /// A run that hasn't begun.
    pub fn new(name: &'static str, options: &'a Options, worker: usize) -> Run<'a> {
        Run {
            name,
            options,
            worker,
            lab: Lab::new(),
            round: 0,
        }
    }

    /// Calls compared so far.
    pub fn cases(&self) -> u64 {
        self.lab.cases()
    }

    /// The word list given, if any.
    pub fn words(&self) -> &'a [u8] {
        self.options.words.as_deref().unwrap_or(b"")
    }

    /// The pattern files given.
    pub fn patterns(&self) -> &'a [Vec<u8>] {
        &self.options.patterns
    }

    /// Whether at least the usual rounds are run, so that a count over all of
    /// them may be held to something.
    pub fn is_whole(&self) -> bool {
        self.options.round.is_none() && self.options.scale >= 1.0
    }

    /// Adds to a mismatch what is needed to repeat it.
    pub fn located(&self, mismatch: Mismatch) -> Mismatch {
        format!(
            "  test {} seed {} round {} (repeat: --only {} --seed {} --round {})\n{}",
            self.name,
            self.options.seed,
            self.round,
            self.name,
            self.options.seed,
            self.round,
            mismatch
        )
    }

    /// Runs one round with its own random numbers.
    fn one_round(
        &mut self,
        round: u64,
        body: &mut impl FnMut(&mut Lab, &mut Rng) -> Result<(), Mismatch>,
    ) -> Result<(), Mismatch> {
        self.round = round;
        faults::note(self.worker, self.name, round);
        let mut rng = Rng::for_round(self.options.seed, self.name, round);
        self.lab.settle(&mut rng);
        body(&mut self.lab, &mut rng).map_err(|mismatch| self.located(mismatch))
    }

    /// Random rounds; `usual` of them, times the scale.
    pub fn rounds(
        &mut self,
        usual: u64,
        mut body: impl FnMut(&mut Lab, &mut Rng) -> Result<(), Mismatch>,
    ) -> Result<(), Mismatch> {
        faults::note(self.worker, self.name, 0);
        if let Some(round) = self.options.round {
            return self.one_round(round, &mut body);
        }
        let count = (usual as f64 * self.options.scale).ceil() as u64;
        (0..count).try_for_each(|round| self.one_round(round, &mut body))
    }

    /// Something that is done once, whatever the scale.
    pub fn once(
        &mut self,
        mut body: impl FnMut(&mut Lab, &mut Rng) -> Result<(), Mismatch>,
    ) -> Result<(), Mismatch> {
        self.one_round(0, &mut body)
    }
}

/// An error unless something holds that the documents demand outright.
pub fn demand(holds: bool, what: impl Fn() -> String) -> Result<(), Mismatch> {
    if holds {
        Ok(())
    } else {
        Err(format!("  not as demanded: {}", what()))
    }
}
