//! `sim7700 listing`, `sim7700 check IMAGE LIST`, `sim7700 print IMAGE LIST`,
//! `sim7700 vectors DIR [SEED]`.

use sim7700::answer::{answer, for_files, page};
use std::io::Write;
use std::path::Path;
use std::process::ExitCode;

const USAGE: &str =
    "usage: sim7700 listing | check IMAGE LIST | print IMAGE LIST | vectors DIR [SEED]";

fn main() -> ExitCode {
    let arguments: Vec<String> = std::env::args().skip(1).collect();
    let words: Vec<&str> = arguments.iter().map(String::as_str).collect();
    let result = match words[..] {
        ["listing"] => say(&sim7700::listing::listing()),
        ["check", image, list] => say(&for_files(Path::new(image), Path::new(list), answer)),
        ["print", image, list] => say(&for_files(Path::new(image), Path::new(list), page)),
        ["vectors", dir] => vectors(dir, sim7700::vectors::DEFAULT_SEED),
        ["vectors", dir, seed] => match seed.parse() {
            Ok(seed) => vectors(dir, seed),
            Err(_) => Err(format!("{seed} is not a seed; {USAGE}")),
        },
        _ => Err(USAGE.to_string()),
    };
    match result {
        Ok(()) => ExitCode::SUCCESS,
        Err(message) => {
            eprintln!("{message}");
            ExitCode::FAILURE
        }
    }
}

fn say(text: &str) -> Result<(), String> {
    std::io::stdout()
        .write_all(text.as_bytes())
        .map_err(|e| e.to_string())
}

/// Writes every vector file of a seed into a directory.
fn vectors(dir: &str, seed: u64) -> Result<(), String> {
    std::fs::create_dir_all(dir).map_err(|e| format!("{dir}: {e}"))?;
    for (name, bytes) in sim7700::vectors::files(seed) {
        let path = Path::new(dir).join(&name);
        std::fs::write(&path, bytes).map_err(|e| format!("{}: {e}", path.display()))?;
    }
    Ok(())
}
