//! Prints table A's report and what each example of document 01 gave.

use second::examples::{examples, OWN, TABLE_A};
use std::io::Write;
use std::process::ExitCode;

fn main() -> ExitCode {
    let mut out = std::io::stdout();
    if out.write_all(&second::report(&TABLE_A)).is_err() {
        return ExitCode::from(2);
    }
    let mut good = true;
    for line in examples(&OWN) {
        let got = line.got.replace('\n', " / ");
        let word = if line.ok() { "ok" } else { "WRONG" };
        println!("{} {got}: {word}", line.name);
        if !line.ok() {
            println!("  document 01 says {}", line.says.replace('\n', " / "));
        }
        good &= line.ok();
    }
    if good {
        ExitCode::SUCCESS
    } else {
        ExitCode::FAILURE
    }
}
