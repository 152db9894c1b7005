//! Times, taken in rounds: in each, every runner runs on every row, one after the other, and the next round begins with the next runner.

use crate::runners::{Runner, Settings};
use std::hint::black_box;
use std::time::Instant;

/// What is read, and how.
pub struct Row {
    pub name: String,
    pub document: Vec<u8>,
    pub settings: Settings,
}

/// The least that a sample takes, in nanoseconds: the clock's own steps do not count then.
const SAMPLE: f64 = 100_000.0;

/// The nanoseconds that a run took, of each round.
pub type Samples = Vec<f64>;

/// Runs something so many times, and answers the nanoseconds that one time took.
pub fn timed<T>(repeats: u32, mut run: impl FnMut() -> T) -> f64 {
    let began = Instant::now();
    for _ in 0..repeats {
        black_box(run());
    }
    began.elapsed().as_nanos() as f64 / f64::from(repeats)
}

/// Whether the runner takes the row's settings.
fn takes(runner: &dyn Runner, row: &Row) -> bool {
    runner.is_alike() || row.settings == Settings::default()
}

/// The samples of each row and runner; none where the runner does not take the row's settings.
pub fn rounds(rows: &[Row], runners: &mut [Box<dyn Runner>], rounds: usize) -> Vec<Vec<Samples>> {
    let taken: Vec<Vec<bool>> = rows.iter().map(|row| runners.iter().map(|runner| takes(&**runner, row)).collect()).collect();
    turns(&taken, SAMPLE, rounds, |row, column, repeats| {
        let (row, runner) = (&rows[row], &mut runners[column]);
        timed(repeats, || runner.run(black_box(&row.document), black_box(row.settings)))
    })
}

/// The samples of each row and column, none where the column does not take the row. A sample takes so many nanoseconds at least; the last argument runs a row by a column so many
/// times, and answers the nanoseconds of one.
pub fn turns(taken: &[Vec<bool>], sample: f64, rounds: usize, mut time: impl FnMut(usize, usize, u32) -> f64) -> Vec<Vec<Samples>> {
    let mut repeats = |row, column| {
        time(row, column, 1);
        (sample / time(row, column, 1)).ceil() as u32
    };
    let mut all = |row: usize, taken: &Vec<bool>| -> Vec<Option<u32>> {
        (0..taken.len()).map(|column| taken[column].then(|| repeats(row, column))).collect()
    };
    let repeats: Vec<Vec<Option<u32>>> = taken.iter().enumerate().map(|(row, taken)| all(row, taken)).collect();
    let mut samples: Vec<Vec<Samples>> = taken.iter().map(|taken| vec![Samples::new(); taken.len()]).collect();
    for round in 0..rounds {
        for (row, repeats) in repeats.iter().enumerate() {
            for turn in 0..repeats.len() {
                let column = (round + turn) % repeats.len();
                if let Some(repeats) = repeats[column] {
                    samples[row][column].push(time(row, column, repeats));
                }
            }
        }
    }
    samples
}

pub fn least(samples: &[f64]) -> f64 {
    samples.iter().copied().fold(f64::INFINITY, f64::min)
}

/// The median of the rounds' ratios.
pub fn ratio(samples: &[f64], to: &[f64]) -> f64 {
    let mut ratios: Vec<f64> = samples.iter().zip(to).map(|(sample, to)| sample / to).collect();
    ratios.sort_by(f64::total_cmp);
    ratios[ratios.len() / 2]
}

/// Both ratios, of the least times and by the rounds; a hyphen where nothing was measured.
pub fn ratios(samples: &[f64], to: &[f64]) -> String {
    if samples.is_empty() {
        return "-".into();
    }
    format!("{:.2} / {:.2}", least(samples) / least(to), ratio(samples, to))
}
