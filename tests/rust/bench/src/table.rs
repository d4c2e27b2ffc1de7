//! The table that is printed, in Markdown.
use crate::timing::Times;

/// One line of it.
pub struct Row<'r> {
    pub file: &'r str,
    pub big: bool,
    pub question: &'r str,
    /// How many bytes the call is about.
    pub bytes: usize,
    pub library: Times,
    pub plain: Times,
    /// `copy_from_slice` of as many bytes as the call writes, where it writes any.
    pub copy: Option<Times>,
    /// The ratio to plain Rust that is not to be passed.
    pub goal: f64,
}

pub fn print_head() {
    println!("| file | order | question | library, ms | GB/s | plain Rust, ms | to plain | median | to copy |");
    println!("|---|---|---|---:|---:|---:|---:|---:|---:|");
}

impl Row<'_> {
    pub fn print(&self) {
        let order = order_name(self.big);
        let (library, plain) = (self.library.least(), self.plain.least());
        let speed = self.bytes as f64 / library / 1e9;
        let ratio = marked(library / plain, self.goal);
        let median = marked(self.library.median_ratio(&self.plain), self.goal);
        let copy = self.copy.as_ref().map_or_else(String::new, |copy| format!("{:.2}", library / copy.least()));
        let (library, plain) = (library * 1e3, plain * 1e3);
        println!(
            "| {} | {order} | {} | {library:.3} | {speed:.1} | {plain:.3} | {ratio} | {median} | {copy} |",
            self.file, self.question,
        );
    }
}

pub fn order_name(big: bool) -> &'static str {
    if big {
        "big"
    } else {
        "little"
    }
}

/// A ratio, bold where it passes the goal.
pub fn marked(ratio: f64, goal: f64) -> String {
    if ratio > goal {
        format!("**{ratio:.2}**")
    } else {
        format!("{ratio:.2}")
    }
}
