//! How far a run is, on standard error, where that is a terminal.

use indicatif::{ProgressBar, ProgressStyle};
use std::time::Duration;

/// A bar, where the length of the rows is known, and otherwise a count of cycles.
pub struct Progress(ProgressBar);

impl Progress {
    /// Begins. Nothing is drawn where standard error is no terminal.
    pub fn new(length: Option<u64>) -> Progress {
        let (bar, template) = match length {
            Some(length) => (ProgressBar::new(length), "{bar:40} {percent}% cycle {msg}, {eta} left"),
            None => (ProgressBar::new_spinner(), "{spinner} cycle {msg}, {elapsed}"),
        };
        if let Ok(style) = ProgressStyle::with_template(template) {
            bar.set_style(style);
        }
        bar.enable_steady_tick(Duration::from_millis(200));
        Progress(bar)
    }

    /// Shows how far it is.
    pub fn at(&self, position: u64, cycle: u64) {
        self.0.set_message(cycle.to_string());
        self.0.set_position(position);
    }

    /// Ends, and takes the bar away.
    pub fn done(&self) {
        self.0.finish_and_clear();
    }
}

impl Drop for Progress {
    fn drop(&mut self) {
        self.done();
    }
}
