//! Compares two import and two export programs on random texts and table files, byte for byte.
//!
//! Build: rustc -O --edition 2021 docs/src/random_text.rs -o target/random_text
//! Usage: random_text IMPORT EXPORT SECOND COUNT [SEED], where each program is the words that start it, one to a line;
//! SECOND is followed by import or export
//!
//! Texts go through both imports, table files through both exports; what is good goes back as well, and must come back.
//! The first cases are a fixed list of telling ones, always run whole; the others, up to COUNT in all, are drawn from the
//! seed. Case number N is the same in every run with the same seed. At the first difference it prints what went in, a text
//! as printf takes it and a file in hex, and both answers, and leaves with 1. It leaves with 1 too where neither program
//! answered some case, or where no case reached one of the codes.

mod cases;
mod compare;
mod damage;
mod draws;
mod effort;
mod files;
mod good;
mod numbers;
mod program;
mod splitmix;
mod table;
mod text;
mod text_cases;
mod text_cover;
mod text_damage;
mod texts;
mod ways;

use compare::{all_cases, printed, Printed, NO_END};
use draws::{seed, Draws};
use files::drawn;
use std::process::{ExitCode, Stdio};
use text_cases::{fixed, Case};
use text_cover::Coverage;
use texts::drawn_text;
use ways::Way;

/// How many bytes of an input or an output are shown.
const MOST_SHOWN: usize = 20_000;

// ---- Running and comparing ----

/// A case with a difference.
pub struct Difference {
    pub index: usize,
    case: Case,
    found: Found,
}

/// Two answers that should be one, each with who gives it, and what they answer.
struct Found {
    way: Way,
    given: Vec<u8>,
    answers: [(&'static str, Option<Printed>); 2],
}

/// Why a case is not looked at any further.
enum Stop {
    Differs(Box<Found>),
    Broken(String),
}

/// Case number `index` of a run, and how many of its draws gave up.
fn case(plan: &Plan, index: usize) -> (Case, u64) {
    if let Some(case) = plan.fixed.get(index) {
        return (case.clone(), 0);
    }
    let draws = &mut Draws::of_case(plan.seed, index);
    let case = if draws.one_in(5) {
        (Way::Export, drawn(draws))
    } else {
        (Way::Import, drawn_text(draws))
    };
    (case, draws.given_up)
}

/// What both programs for this way print; none if neither ends well in time.
fn both(plan: &Plan, way: Way, given: &[u8]) -> Result<Option<Printed>, Stop> {
    let first = match way {
        Way::Import => &plan.import,
        Way::Export => &plan.export,
    };
    let second = format!("{}\n{}", plan.second, way.word());
    let printed = |program: &str| printed(program, Stdio::piped(), given).map_err(Stop::Broken);
    let (first, second) = (printed(first)?, printed(&second)?);
    if first == second {
        return Ok(second);
    }
    let answers = [("first program", first), ("second program", second)];
    Err(differs(way, given, answers))
}

fn differs(way: Way, given: &[u8], answers: [(&'static str, Option<Printed>); 2]) -> Stop {
    let given = given.to_vec();
    Stop::Differs(Box::new(Found {
        way,
        given,
        answers,
    }))
}

/// What comes back of a good input: the same, but a text without quotes and with its last line ended.
fn comes_back(way: Way, given: &[u8]) -> Vec<u8> {
    let mut bytes = given.to_vec();
    if way == Way::Import {
        bytes.retain(|byte| *byte != b'"');
        if !bytes.is_empty() && !bytes.ends_with(b"\r\n") {
            bytes.extend(b"\r\n");
        }
    }
    bytes
}

/// The verdict on a case, after a good one went back as well; none where no program answered.
fn verdict(plan: &Plan, way: Way, given: &[u8]) -> Result<Option<(u64, usize)>, Stop> {
    let Some(printed) = both(plan, way, given)? else {
        return Ok(None);
    };
    let verdict = way.verdict(&printed);
    if verdict == Some((0, 0)) {
        let [there, _] = printed;
        let back = both(plan, way.back(), &there)?;
        let wanted = Some([comes_back(way, given), Vec::new()]);
        if back != wanted {
            let answers = [("answer", back), ("right answer", wanted)];
            return Err(differs(way.back(), &there, answers));
        }
    }
    Ok(verdict)
}

/// Runs case number `index` and says whether there is no difference.
fn look(plan: &Plan, index: usize, coverage: &mut Coverage) -> Result<bool, String> {
    let (case, given_up) = case(plan, index);
    let (way, (name, given)) = &case;
    coverage.add_given_up(given_up);
    match verdict(plan, *way, given) {
        Ok(verdict) => {
            let fixed = index < plan.fixed.len();
            let kind = if fixed { "fixed list" } else { name };
            coverage.add(kind, *way, given, verdict);
            Ok(true)
        }
        Err(Stop::Broken(error)) => Err(error),
        Err(Stop::Differs(found)) => {
            let found = *found;
            coverage.difference = Some(Difference { index, case, found });
            Ok(false)
        }
    }
}

// ---- Showing ----

/// A text as printf's %b takes it.
fn escaped(text: &[u8]) -> String {
    let escape = |byte: &u8| match byte {
        b'\r' => String::from("\\r"),
        b'\n' => String::from("\\n"),
        b' '..=b'~' if !b"\\'".contains(byte) => char::from(*byte).to_string(),
        _ => format!("\\x{byte:02X}"),
    };
    text.iter().map(escape).collect()
}

/// The bytes that go in or come out of a way, a text or a file.
fn shown(bytes: &[u8], what: &str) -> String {
    let front = &bytes[..bytes.len().min(MOST_SHOWN)];
    let shown = if what == "text" {
        escaped(front)
    } else {
        let hex: Vec<String> = front.iter().map(|byte| format!("{byte:02X}")).collect();
        hex.join(" ")
    };
    format!("{what} of {} bytes: {shown}", bytes.len())
}

fn show(difference: &Difference) {
    let Difference { index, case, found } = difference;
    let (way, (name, given)) = case;
    println!("case {index}: {name}, a {}", shown(given, way.given()));
    if found.way != *way {
        println!(
            "on the way back, a {}",
            shown(&found.given, found.way.given())
        );
    }
    for (who, answer) in &found.answers {
        println!("-- {}, the {who}:", found.way.word());
        match answer {
            None => println!("{NO_END}"),
            Some([output, error]) => {
                println!(
                    "standard output, a {}",
                    shown(output, found.way.back().given())
                );
                println!("standard error: {}", escaped(error));
            }
        }
    }
}

// ---- The run ----

struct Plan {
    import: String,
    export: String,
    second: String,
    count: usize,
    seed: u64,
    fixed: Vec<Case>,
    /// How many of the fixed list's draws gave up.
    given_up: u64,
}

fn plan() -> Option<Plan> {
    let words: Vec<String> = std::env::args().skip(1).collect();
    let [import, export, second, count, rest @ ..] = &words[..] else {
        return None;
    };
    let (fixed, given_up) = fixed();
    Some(Plan {
        import: import.clone(),
        export: export.clone(),
        second: second.clone(),
        count: fixed.len().max(count.parse().ok()?),
        seed: seed(rest)?,
        fixed,
        given_up,
    })
}

fn run(plan: &Plan) -> Result<Coverage, String> {
    let look = |index, coverage: &mut Coverage| look(plan, index, coverage);
    let mut coverage = all_cases(plan.count, look)?;
    coverage.add_given_up(plan.given_up);
    Ok(coverage)
}

fn main() -> ExitCode {
    let Some(plan) = plan() else {
        eprintln!("usage: random_text IMPORT EXPORT SECOND COUNT [SEED]");
        return ExitCode::from(2);
    };
    let coverage = match run(&plan) {
        Err(error) => {
            eprintln!("{error}");
            return ExitCode::from(2);
        }
        Ok(coverage) => coverage,
    };
    if let Some(difference) = &coverage.difference {
        show(difference);
        return ExitCode::from(1);
    }
    let (count, seed, fixed) = (plan.count, plan.seed, plan.fixed.len());
    println!("{count} texts and files, {fixed} of them fixed, seed {seed}: no difference");
    coverage.print();
    let missing = coverage.never_reached();
    println!("codes never reached: {missing:?}");
    // Two programs that both say nothing agree on nothing.
    ExitCode::from(u8::from(coverage.unanswered > 0 || !missing.is_empty()))
}
