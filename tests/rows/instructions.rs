//! Looks for divisions and multiplications in a function of an archive and in all functions that it reaches by calls and
//! jumps, as objdump shows them. Use: instructions ARCHIVE FUNCTION
//! The exit status is 0 where there is none, 1 where there is one, and 2 where that cannot be said: a function that the
//! archive has not, or a jump to an address that is computed or that objdump gives no name.

use std::collections::{BTreeMap, BTreeSet};
use std::process::{Command, ExitCode};

/// What the names of divisions and multiplications contain, those of vectors and of fractions too.
const FORBIDDEN: [&str; 3] = ["div", "mul", "madd"];

#[derive(Default)]
struct Function {
    instructions: Vec<String>,
    /// The functions that its calls and jumps name.
    reached: BTreeSet<String>,
}

type Functions = BTreeMap<String, Function>;

fn main() -> ExitCode {
    let arguments: Vec<String> = std::env::args().skip(1).collect();
    let [archive, name] = arguments.as_slice() else {
        eprintln!("use: instructions ARCHIVE FUNCTION");
        return ExitCode::from(2);
    };
    match functions_of(archive).and_then(|functions| look(&functions, name)) {
        Ok((count, found)) if found.is_empty() => {
            println!("{name}: {count} instructions, no division and no multiplication");
            ExitCode::SUCCESS
        }
        Ok((_, found)) => {
            println!("{name}: {}", found.join("; "));
            ExitCode::from(1)
        }
        Err(problem) => {
            println!("{name}: {problem}");
            ExitCode::from(2)
        }
    }
}

/// How many instructions the function and those that it reaches have, and which of them are forbidden.
fn look(functions: &Functions, name: &str) -> Result<(usize, Vec<String>), String> {
    let mut seen = BTreeSet::from([name.to_string()]);
    let mut open = vec![name.to_string()];
    let (mut count, mut found) = (0, Vec::new());
    while let Some(name) = open.pop() {
        let function = functions.get(&name).ok_or(format!("the archive has no function {name}"))?;
        if let Some(computed) = function.instructions.iter().find(|text| is_jump(text) && text.contains('*')) {
            return Err(format!("an address that is computed in {name}: {computed}"));
        }
        count += function.instructions.len();
        found.extend(
            function.instructions.iter().filter(|text| is_forbidden(text)).map(|text| format!("{name}: {text}")),
        );
        open.extend(function.reached.iter().filter(|name| seen.insert(name.to_string())).cloned());
    }
    Ok((count, found))
}

fn is_jump(instruction: &str) -> bool {
    instruction.split_whitespace().any(|word| word.starts_with('j') || word.starts_with("call"))
}

fn is_forbidden(instruction: &str) -> bool {
    FORBIDDEN.iter().any(|part| instruction.contains(part))
}

/// The functions of an archive. objdump prints a line `address <name>:` before each and a line `address: instruction` for each
/// instruction; where the linker is to fill in an address, `R_X86_64_TYPE place` follows on the line.
fn functions_of(archive: &str) -> Result<Functions, String> {
    let output = Command::new("objdump")
        .args(["-d", "-r", "-w", "--no-show-raw-insn", archive])
        .output()
        .map_err(|error| format!("objdump: {error}"))?;
    if !output.status.success() {
        return Err(format!("objdump cannot read {archive}"));
    }
    let mut functions = Functions::new();
    let mut name = String::new();
    for line in String::from_utf8_lossy(&output.stdout).lines() {
        if let Some((_, started)) = line.strip_suffix(">:").and_then(|line| line.split_once(" <")) {
            name = started.to_string();
        } else if let Some((_, text)) = line.split_once(":\t") {
            functions.entry(name.clone()).or_default().add(text);
        }
    }
    Ok(functions)
}

impl Function {
    /// Adds an instruction; what the linker fills in stands behind it.
    fn add(&mut self, text: &str) {
        let (instruction, filled_in) = match text.split_once("R_X86_64_") {
            Some((instruction, filled_in)) => (instruction, filled_in.split_whitespace().nth(1)),
            None => (text, None),
        };
        // Without the names of places, which may contain anything.
        let (words, place) = instruction.split_once(['<', '#']).unwrap_or((instruction, ""));
        self.instructions.push(words.trim().to_string());
        if is_jump(words) {
            let shown = place.split_once('>').map(|(place, _)| place);
            self.reached.insert(filled_in.or(shown).map_or("at a place without a name".to_string(), function_at));
        }
    }
}

/// The function that a place is in: without its section, and without the distance from its beginning.
fn function_at(place: &str) -> String {
    let name = place.strip_prefix(".text.").unwrap_or(place);
    let end = ["+0x", "-0x"].iter().filter_map(|sign| name.rfind(sign)).min().unwrap_or(name.len());
    name[..end].to_string()
}
