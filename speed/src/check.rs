//! That what is measured is the same work.

use crate::clock::Row;
use crate::runners::{Runner, Tally};

/// Reads the row once by every runner that answers as the first one does: what all of them tell, or which one tells something else.
pub fn told(row: &Row, runners: &mut [Box<dyn Runner>]) -> Result<Tally, String> {
    let first = runners[0].run(&row.document, row.settings);
    for runner in runners.iter_mut().filter(|runner| runner.is_alike()) {
        let tally = runner.run(&row.document, row.settings);
        if tally != first {
            return Err(format!("{} tells {tally:?} of {}, which is {first:?}", runner.name(), row.name));
        }
    }
    Ok(first)
}
