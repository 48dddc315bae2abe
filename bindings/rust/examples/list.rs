//! Lists the image in a file, or says what is wrong with it and where.
//!
//!     cargo run --example list FILE
use bilqarush::typed::{explain, list_to_string, ImageBytes};
use std::process::ExitCode;
use std::{env, fs};

fn main() -> ExitCode {
    let Some(path) = env::args().nth(1) else {
        eprintln!("list FILE");
        return ExitCode::from(2);
    };
    let bytes = match fs::read(&path) {
        Ok(bytes) => bytes,
        Err(error) => {
            eprintln!("{path}: {error}");
            return ExitCode::from(2);
        }
    };
    match explain(ImageBytes(&bytes)) {
        Some(refusal) => {
            eprintln!("{path}: {refusal}");
            ExitCode::FAILURE
        }
        None => {
            print!("{}", list_to_string(ImageBytes(&bytes)).unwrap());
            ExitCode::SUCCESS
        }
    }
}
