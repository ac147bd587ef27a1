//! The independent implementation of the rules, and the inputs on which the C library and the program `routes` are
//! compared with it.
//!
//!     reference cases SEED CASES FOLDER
//!         writes FOLDER/cases for tests/c/driver.c, FOLDER/expected, FOLDER/counts, and FOLDER/missing: a line for
//!         each answer and output length that never came
//!     reference inputs SEED FOLDER
//!         writes inputs of `routes`, FOLDER/NUMBER.in, and what it prints, FOLDER/NUMBER.out
//!     reference routes
//!         is the program `routes`

mod calls;
mod cases;
mod counts;
mod networks;
mod pieces;
mod program;
mod rules;

use std::fs;
use std::io::{self, Read, Write};

fn write_cases(seed: u64, cases: usize, folder: &str) -> io::Result<()> {
    let mut r = networks::Random::new(seed);
    let mut counts = counts::Counts::default();
    let mut input = io::BufWriter::new(fs::File::create(format!("{}/cases", folder))?);
    let mut expected = io::BufWriter::new(fs::File::create(format!("{}/expected", folder))?);
    for number in 0..cases {
        let case = cases::case(&mut r, number);
        let (answer, lent) = case.expected();
        counts.case(&case, answer);
        writeln!(input, "{}", case.text())?;
        writeln!(expected, "{}", cases::expected_line(answer, &lent))?;
    }
    fs::write(format!("{}/counts", folder), counts.table())?;
    fs::write(format!("{}/missing", folder), counts.missing())
}

fn write_inputs(seed: u64, folder: &str) -> io::Result<()> {
    let mut r = networks::Random::new(seed);
    let mut number = 0;
    for (name, maker, many) in program::KINDS {
        for _ in 0..many {
            let input = maker(&mut r);
            fs::write(format!("{}/{:03}.in", folder, number), &input)?;
            fs::write(format!("{}/{:03}.out", folder, number), program::routes(&input))?;
            number += 1;
        }
        println!("{:<26}{:>7}", format!("routes: {}", name), many);
    }
    Ok(())
}

fn routes() -> io::Result<()> {
    let mut input = Vec::new();
    io::stdin().read_to_end(&mut input)?;
    io::stdout().write_all(program::routes(&input).as_bytes())
}

fn main() -> io::Result<()> {
    let args: Vec<String> = std::env::args().skip(1).collect();
    let words: Vec<&str> = args.iter().map(|a| a.as_str()).collect();
    let number = |text: &str| text.parse::<u64>().expect("a number");
    match words[..] {
        ["cases", seed, cases, folder] => write_cases(number(seed), number(cases) as usize, folder),
        ["inputs", seed, folder] => write_inputs(number(seed), folder),
        ["routes"] => routes(),
        _ => panic!("reference cases SEED CASES FOLDER | inputs SEED FOLDER | routes"),
    }
}
