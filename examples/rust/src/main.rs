//! Writes the canonical file of a property list: canonical IN OUT. Exits with 2 if the input is refused.
use plistconv::Verdict;
use std::{env, fs, process::ExitCode};

/// Returns the canonical file of the property list, which is equal to it.
fn canonical(octets: &[u8]) -> Result<Vec<u8>, plistconv::Refused> {
    let file = plistconv::canonicalise(octets)?;
    assert!(plistconv::same(octets, &file)?);
    assert_eq!(plistconv::check(&file)?, Verdict::Canonical);
    Ok(file)
}

fn main() -> ExitCode {
    let words: Vec<String> = env::args().collect();
    let [_, input, output] = &words[..] else {
        eprintln!("usage: canonical IN OUT");
        return ExitCode::from(3);
    };
    let octets = match fs::read(input) {
        Ok(octets) => octets,
        Err(error) => {
            eprintln!("{input}: {error}");
            return ExitCode::from(4);
        }
    };
    let file = match canonical(&octets) {
        Ok(file) => file,
        Err(refused) => {
            eprintln!("{input}: refused {refused}");
            return ExitCode::from(2);
        }
    };
    match fs::write(output, file) {
        Ok(()) => ExitCode::SUCCESS,
        Err(error) => {
            eprintln!("{output}: {error}");
            ExitCode::from(4)
        }
    }
}
