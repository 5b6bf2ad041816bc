//! A refusal in words: the file, the line, and the row of README's table.

use crate::expect::{ensure, line, Test};
use crate::folder::{check_listing, root, run_listing, Folder};
use crate::process::{said, Said};
use crate::routines::{counting, viability};
use lines::listing;
use reference::{check, printed, step_bound, Outcome, Refusal};
use std::fs;
use trials::runs::Call;

const LINE: usize = 40;
/// Bytes that are shown as `?`.
const UNPRINTABLE: [u8; 8] = [0, 9, 10, 13, 27, 127, 128, 255];

pub fn tests() -> Vec<Test> {
    vec![
        ("README has a row for each refusal", table_is_whole),
        ("refusals of the checker in words", checked),
        ("steps, and refusals of the steps in words", steps),
        ("refusals of a listing that is run in words", run),
        ("refusals of tables and states in words", tables_and_states),
        ("bytes that cannot be shown", unprintable),
        ("a line without its end", without_end),
        ("the file is named as it was given", as_given),
    ]
}

/// The row of README's table for a refusal: its meaning, and what to do.
fn row(number: u64) -> Option<(String, String)> {
    let text = fs::read_to_string(root().join("README.md")).expect("README.md is there");
    let (_, table) = text.split_once("| number | what it means | what to do |")?;
    let rows = table.lines().skip(1).take_while(|line| line.is_empty() || line.starts_with('|'));
    let cells = |line: &str| line.split('|').map(|cell| cell.trim().to_string()).collect::<Vec<_>>();
    let found = rows.map(cells).find(|cells| cells.len() == 5 && cells[1] == number.to_string())?;
    Some((found[2].clone(), found[3].clone()))
}

/// A listing for each of the refusals of a listing, with its number: 1 to 14, and 19.
fn listings() -> impl Iterator<Item = (u64, Vec<u8>)> {
    let example = |name: &str| fs::read(root().join("examples").join(name)).expect("the example is there");
    let mut escape = listing("STOP; STOP; STOP");
    escape[LINE + 9] = 27;
    let listings = vec![
        Vec::new(),
        escape,
        listing("STOP; HALT 1 2"),
        listing("SETC 0; STOP"),
        listing("STOP; SETC 16 _ _ _ _ 4294967295"),
        listing("MOST 0 _ _ _ _ 1; LEAS 0 _ _ _ _ 1; STOP"),
        listing("STOP; LEAS 0 _ _ _ _ 1"),
        listing("STOP").repeat(513),
        listing("SETC 0 _ _ _ _ 1; JUMP _ _ _ 2"),
        listing("STOP; SETC 0 _ _ _ _ 1"),
        listing("LEAS 0 _ _ _ _ 5; MOST 0 _ _ _ _ 4; STOP"),
        example("c04.lst"),
        example("c09.lst"),
        example("c06q5.lst"),
        example("packets_same.lst"),
    ];
    (1..=14).chain([19]).zip(listings)
}

/// No program gives 18, so that its row is held to the definition of the words; all others are too.
fn table_is_whole() -> Result<(), String> {
    let path = root().join("crates/explained/specs/Explanation.antt");
    let words = fs::read_to_string(path).expect("the words of the refusals are there");
    (1..=20).try_for_each(|number| {
        let (meaning, advice) = row(number).ok_or_else(|| format!("no row for {number}"))?;
        [meaning, advice].iter().try_for_each(|text| {
            ensure(words.contains(&format!("= bytes \"{text}\"\n")), || format!("not the words of {number}: {text}"))
        })
    })
}

/// A line of a listing as it is shown.
fn shown(listing: &[u8], place: u64) -> String {
    let start = (place as usize - 1) * LINE;
    let bytes = &listing[start..start + LINE - 1];
    let text: String = bytes.iter().map(|byte| if (32..127).contains(byte) { *byte as char } else { '?' }).collect();
    text.trim_end_matches(' ').to_string()
}

/// What standard error must have for a refusal.
fn in_words(file: &str, listing: &[u8], refusal: &Refusal) -> String {
    let mut text = String::new();
    if refusal.place > 0 {
        text += &format!("{file}, line {}: {}\n", refusal.place, shown(listing, refusal.place));
    }
    if refusal.second > 0 {
        text += &format!("{file}, claim line {}: {}\n", refusal.second, shown(listing, refusal.second));
    }
    let (meaning, advice) = row(refusal.number).unwrap_or_default();
    text + &format!("{file}: {}: {meaning}; {advice}\n", refusal.number)
}

/// Status 1, this line of 40 bytes and no more, and these words.
fn is_said(said: &Said, line: &str, words: &str) -> Result<(), String> {
    ensure(said.status == 1 && said.output == line, || format!("{said:?} where {line:?} is due"))?;
    ensure(said.error == words, || format!("it said\n{}where this is due\n{words}", said.error))
}

fn is_checked(folder: &Folder, name: &str, number: u64) -> Result<(), String> {
    let bytes = folder.get(name);
    let answer = check(&bytes);
    ensure(answer.number == number, || format!("the reference answers {answer:?} in place of {number}"))?;
    let refusal = Refusal { number, place: answer.place, second: answer.second };
    let words = in_words(&folder.path(name), &bytes, &refusal);
    let line = String::from_utf8_lossy(&printed(&answer)).into_owned();
    is_said(&said(check_listing().arg(folder.at(name))), &line, &words)
}

fn checked() -> Result<(), String> {
    let folder = Folder::new("words_checked");
    for (number, bytes) in listings() {
        folder.put("listing", &bytes);
        is_checked(&folder, "listing", number)?;
    }
    for bytes in [listing("STOP")[1..].to_vec(), listing("STOP").repeat(1_639)] {
        folder.put("listing", &bytes);
        is_checked(&folder, "listing", 1)?;
    }
    Ok(())
}

/// The line for the steps of a listing, and the words of what turns it back.
fn is_bounded(folder: &Folder, name: &str, number: u64) -> Result<(), String> {
    let bytes = folder.get(name);
    let said = said(check_listing().arg("--steps").arg(folder.at(name)));
    match step_bound(&bytes) {
        Ok(bound) => {
            let line = format!("STEP{bound:>35}\n");
            ensure(number == 0 && said.status == 0 && said.output == line && said.error.is_empty(), || {
                format!("{said:?} where {line:?} is due")
            })
        }
        Err(refusal) => {
            ensure(refusal.number == number, || format!("the reference answers {refusal:?} in place of {number}"))?;
            let line = match refusal.second {
                0 => format!("FAIL{number:>4}{:>31}\n", refusal.place),
                second => format!("FAIL{number:>4}{second:>16}{:>15}\n", refusal.place),
            };
            is_said(&said, &line, &in_words(&folder.path(name), &bytes, &refusal))
        }
    }
}

fn steps() -> Result<(), String> {
    let folder = Folder::new("words_steps");
    let example = |name: &str| fs::read(root().join("examples").join(name)).expect("the example is there");
    let bounded = [
        (0, example("c05.lst")),
        (0, example("halves.lst")),
        (0, listing("TURN 1; BEQU _ 1 _ 3 1 0; LEAS 1 _ _ _ _ 1; SUBW 1 1 _ _ 1 1; JUMP _ _ _ 0; STOP")),
        (20, example("halves_late.lst")),
        (20, example("c03.lst")),
        (20, example("viability.lst")),
    ];
    bounded.into_iter().chain(listings()).try_for_each(|(number, bytes)| {
        folder.put("listing", &bytes);
        is_bounded(&folder, "listing", number)
    })
}

/// Runs the call, whose refusal is about this file.
fn is_refused(folder: &Folder, call: &Call, number: u64, file: &str) -> Result<(), String> {
    folder.write(call);
    let run = call.by_reference().run;
    let Outcome::Refused(refusal) = run.outcome else { return Err(format!("the reference answers {run:?}")) };
    ensure(refusal.number == number, || format!("the reference answers {refusal:?} in place of {number}"))?;
    is_said(&folder.run(call.budget), &line(&run), &in_words(&folder.path(file), &call.listing, &refusal))
}

fn run() -> Result<(), String> {
    let folder = Folder::new("words_run");
    let call = counting(1);
    listings().try_for_each(|(number, bytes)| is_refused(&folder, &call.with_listing(&bytes), number, "listing"))
}

fn tables_and_states() -> Result<(), String> {
    let folder = Folder::new("words_tables");
    let call = viability(10);
    let with_tables =
        |trays: usize, results: usize| Call { trays: vec![0; trays], results: vec![0; results], ..call.clone() };
    is_refused(&folder, &with_tables(65_537, 9), 15, "trays")?;
    is_refused(&folder, &with_tables(9, 65_537), 15, "results")?;
    is_refused(&folder, &with_tables(65_536, 70_000), 15, "results")?;
    let mut no_point = call.clone();
    no_point.state.point = 16;
    is_refused(&folder, &no_point, 16, "state")?;
    let mut missed = call.clone();
    missed.state.registers[1] = 5;
    is_refused(&folder, &missed, 17, "state")
}

fn unprintable() -> Result<(), String> {
    let folder = Folder::new("words_bytes");
    for byte in UNPRINTABLE {
        for column in [0, 9, 38] {
            let mut bytes = listing("SETC 1 _ _ _ _ 5; SETC 2 _ _ _ _ 5; STOP");
            bytes[LINE + column] = byte;
            folder.put("listing", &bytes);
            is_checked(&folder, "listing", 2).map_err(|why| format!("byte {byte}: {why}"))?;
        }
    }
    Ok(())
}

/// The 40th byte is no line feed: the columns before it are shown.
fn without_end() -> Result<(), String> {
    let folder = Folder::new("words_end");
    let mut bytes = listing("SETC 1 _ _ _ _ 5; STOP");
    bytes[LINE - 1] = b' ';
    folder.put("listing", &bytes);
    is_checked(&folder, "listing", 2)
}

/// Relative, through links and by way of another folder: the words have what the user typed.
fn as_given() -> Result<(), String> {
    let mut call = viability(10);
    call.state.registers[1] = 5;
    let folder = Folder::with("words_given", &call);
    std::os::unix::fs::symlink("state", folder.at("a link")).expect("a link can be made");
    let given = ["./listing", "trays", "../words_given/results", "a link", "10"];
    let said = said(run_listing().args(given).current_dir(folder.place()));
    let run = call.by_reference().run;
    let Outcome::Refused(refusal) = run.outcome else { return Err(format!("the reference answers {run:?}")) };
    is_said(&said, &line(&run), &in_words("a link", &call.listing, &refusal))?;
    folder.put("listing", &listing("HALT"));
    let said = crate::process::said(check_listing().arg("./listing").current_dir(folder.place()));
    ensure(said.error.starts_with("./listing, line 1: HALT\n./listing: 3: "), || format!("{said:?}"))
}
