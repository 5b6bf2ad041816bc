//! Bad arguments, and files that are no state: an error that changes nothing.

use crate::expect::{is_error, is_plain_answer, is_unchanged, Test};
use crate::folder::{state_text, Folder, FILES};
use crate::routines::{counting, viability};

pub fn tests() -> Vec<Test> {
    vec![
        ("a wrong number of arguments", wrong_number),
        ("budgets that are none", bad_budgets),
        ("a budget with zeros before it is decimal", zeros),
        ("files that are missing, folders or without a name", bad_files),
        ("states that are none", bad_states),
    ]
}

fn is_refused(folder: &Folder, given: &[String], part: &str) -> Result<(), String> {
    let before = folder.entries();
    is_error(&folder.run_with(given), part)?;
    is_unchanged(folder, &before)
}

fn wrong_number() -> Result<(), String> {
    let folder = Folder::with("arguments", &viability(10));
    let given = folder.arguments("10");
    (0..5).try_for_each(|count| is_refused(&folder, &given[..count], "usage"))?;
    is_refused(&folder, &[&given[..], &["prepared".to_string()]].concat(), "usage")
}

fn bad_budgets() -> Result<(), String> {
    let folder = Folder::with("budgets", &viability(10));
    let budgets = ["", "x", "-1", "+1", "1.5", " 1", "1 ", "0x1", "1e3", "4294967296", "99999999999999999999"];
    budgets.iter().try_for_each(|budget| is_refused(&folder, &folder.arguments(budget), "budget"))
}

fn zeros() -> Result<(), String> {
    let call = counting(3);
    let folder = Folder::with("zeros", &call);
    is_plain_answer(&folder, &call, &folder.run_with(&folder.arguments("009"))).map(drop)
}

fn bad_files() -> Result<(), String> {
    let folder = Folder::with("bad_files", &viability(10));
    for at in 0..FILES.len() {
        for (name, part) in [("missing", "missing"), (".", "/."), ("listing/x", "listing/x")] {
            let mut given = folder.arguments("10");
            given[at] = folder.path(name);
            is_refused(&folder, &given, part).map_err(|why| format!("{} as {name}: {why}", FILES[at]))?;
        }
        let mut given = folder.arguments("10");
        given[at] = String::new();
        is_refused(&folder, &given, "").map_err(|why| format!("{} without a name: {why}", FILES[at]))?;
    }
    Ok(())
}

fn bad_states() -> Result<(), String> {
    let call = viability(10);
    let folder = Folder::with("states", &call);
    let good = state_text(&call.state);
    let mut letter = good.clone();
    letter[78] = b'x';
    let mut large = good.clone();
    large[64..79].copy_from_slice(b"     4294967296");
    let (first, rest) = good.split_at(40);
    let texts = [vec![], good[..640].to_vec(), [&good[..], b"\n"].concat(), letter, large, [rest, first].concat()];
    for text in texts {
        folder.put("state", &text);
        is_refused(&folder, &folder.arguments("10"), "no state")?;
    }
    Ok(())
}
