//! Draws CSV from standard input as a table, with the arguments of csvtable: csv [ARGUMENT]..
use comfy_table_proved::csvtable::draw_csv;
use std::io::{Read, stdin};
use std::process::ExitCode;

fn main() -> ExitCode {
    let arguments: Vec<String> = std::env::args().skip(1).collect();
    let arguments: Vec<&str> = arguments.iter().map(String::as_str).collect();
    let mut input = Vec::new();
    stdin().read_to_end(&mut input).expect("standard input");
    match draw_csv(&input, &arguments) {
        Ok(drawing) => print!("{drawing}"),
        Err(error) => {
            eprintln!("{error}");
            return ExitCode::FAILURE;
        }
    }
    ExitCode::SUCCESS
}
