//! Evaluates settings.rec and intervals.rec of the current directory.

fn main() {
    let settings = std::fs::read("settings.rec").ok();
    let intervals = std::fs::read("intervals.rec").ok();
    print!("{}", second::program::evaluate(settings, intervals));
}
