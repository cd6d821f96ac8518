//! Prints the worked examples of docs/TIMERS.md and docs/PULSE.md, the rows of docs/CONTROLLER.md and those of docs/SHEET.md, from runs
//! of the proved library.
fn main() {
    for example in rattle::shown::EXAMPLES {
        println!("{}", example.text());
    }
    println!("{}", rattle::shown_pulse::text());
    println!("{}", rattle::bench_rows::table());
    println!("{}", rattle::shown_sheet::table());
}
