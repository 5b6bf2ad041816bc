//! Results and state that are no regular files, that are reached through links, and the permissions of both.

use crate::expect::{ensure, is_answer, is_error, is_plain_answer, is_unchanged, Test};
use crate::folder::{run_listing, Folder};
use crate::process::said;
use crate::routines::{counting, ROUND};
use std::fs::{self, OpenOptions};
use std::os::unix::fs::{chown, symlink, MetadataExt};
use std::os::unix::net::UnixListener;
use std::os::unix::process::CommandExt;
use std::path::Path;
use std::process::Command;

/// A user who is not the one that may do anything.
const NOBODY: u32 = 65_534;

pub fn tests() -> Vec<Test> {
    vec![
        ("a device as results or state", || refused("device", device)),
        ("a folder as results or state", || refused("folder", |path| fs::create_dir(path).is_ok())),
        ("a pipe as results or state", || refused("pipe", |path| runs(Command::new("mkfifo").arg(path)))),
        ("a socket as results or state", || refused("socket", socket)),
        ("a link that leads nowhere", || refused("nowhere", |path| symlink("missing", path).is_ok())),
        ("the file that a link leads to is replaced", through_links),
        ("permissions are kept", permissions),
        ("owner and group are kept", owners),
        ("a write-protected file is refused", write_protected),
        ("a write-protected folder is refused", protected_folder),
    ]
}

fn runs(command: &mut Command) -> bool {
    command.status().is_ok_and(|status| status.success())
}

/// A device of the same kind as /dev/null: a wrong run would replace it.
fn device(path: &Path) -> bool {
    runs(Command::new("bash").arg("-c").arg("mknod \"$0\" c 1 3 2>/dev/null").arg(path))
}

/// A socket; its path may be longer than a socket's may be, so it is made by way of a short one.
fn socket(path: &Path) -> bool {
    let short = std::env::temp_dir().join(format!("socket_{}", std::process::id()));
    let _ = fs::remove_file(&short);
    let folder = path.parent().expect("it is in a folder");
    let made = symlink(folder, &short).is_ok() && UnixListener::bind(short.join("results")).is_ok();
    let _ = fs::remove_file(&short);
    made && fs::rename(folder.join("results"), path).is_ok()
}

/// Has such a thing in the place of the results, then of the state; it is refused and stays. Where the system does not
/// let one be made, there is nothing to try.
fn refused(name: &str, make: fn(&Path) -> bool) -> Result<(), String> {
    for (at, other) in [(2, "results"), (3, "state")] {
        let folder = Folder::with(&format!("kind_{name}"), &counting(1));
        fs::remove_file(folder.at("results")).expect("it can be removed");
        if !make(&folder.at("odd")) {
            return Ok(());
        }
        folder.write(&counting(1));
        let mut given = folder.arguments("3");
        given[at] = folder.path("odd");
        let before = folder.entries();
        is_error(&folder.run_with(&given), "odd").map_err(|why| format!("as {other}: {why}"))?;
        is_unchanged(&folder, &before)?;
    }
    Ok(())
}

/// Links to links, in other folders and relative: the files they lead to are replaced, and the links stay.
fn through_links() -> Result<(), String> {
    let call = counting(1);
    let folder = Folder::with("links_files", &call);
    let links = Folder::new("links");
    for name in ["results", "state"] {
        symlink(format!("../links_files/{name}"), links.at(format!("{name}_1"))).expect("a link can be made");
        symlink(format!("{name}_1"), links.at(name)).expect("a link can be made");
    }
    let before = links.entries();
    let mut given = folder.arguments(&ROUND.to_string());
    (given[2], given[3]) = (links.path("results"), links.path("state"));
    let said = folder.run_with(&given);
    is_plain_answer(&folder, &call, &said)?;
    is_unchanged(&links, &before)
}

fn permissions() -> Result<(), String> {
    let call = counting(1);
    for mask in ["000", "022", "077"] {
        for (results, state) in [(0o640, 0o600), (0o600, 0o755), (0o755, 0o640), (0o666, 0o606)] {
            let folder = Folder::with("permissions", &call);
            folder.set_mode("results", results);
            folder.set_mode("state", state);
            let mut command = Command::new("bash");
            command.arg("-c").arg(format!("umask {mask}; exec \"$0\" \"$@\"")).arg(run_listing().get_program());
            let said = said(command.args(folder.arguments("3")));
            is_plain_answer(&folder, &call, &said)?;
            let modes = (folder.mode("results"), folder.mode("state"));
            ensure(modes == (results, state), || {
                format!("modes {:o} and {:o}, not {results:o} and {state:o}", modes.0, modes.1)
            })?;
        }
    }
    Ok(())
}

/// Where the system lets a file be given away.
fn owners() -> Result<(), String> {
    let call = counting(1);
    let folder = Folder::with("owners", &call);
    if chown(folder.at("results"), Some(NOBODY), Some(NOBODY)).is_err() {
        return Ok(());
    }
    folder.set_mode("results", 0o640);
    is_plain_answer(&folder, &call, &folder.run(call.budget))?;
    let found = fs::metadata(folder.at("results")).map_err(|error| error.to_string())?;
    let kept = (found.uid(), found.gid(), found.mode() & 0o777);
    ensure(kept == (NOBODY, NOBODY, 0o640), || format!("owner, group and mode {kept:?}"))
}

/// The wrapper as a user for whom protection counts: the one who runs the tests, or nobody. None where nobody cannot
/// reach the programs.
fn as_user(folder: &Folder, program: &str) -> Option<Command> {
    let probe = folder.at("probe");
    fs::write(&probe, "").expect("the folder can be written");
    fs::set_permissions(&probe, std::os::unix::fs::PermissionsExt::from_mode(0o444)).expect("the mode can be set");
    let counts = OpenOptions::new().write(true).open(&probe).is_err();
    fs::remove_file(&probe).expect("the file can be removed");
    let mut command = Command::new(program);
    if counts {
        return Some(command);
    }
    let mut test = Command::new("test");
    let reaches = runs(test.arg("-x").arg(program).uid(NOBODY).gid(NOBODY));
    command.uid(NOBODY).gid(NOBODY);
    reaches.then_some(command)
}

fn write_protected() -> Result<(), String> {
    let call = counting(1);
    for name in ["results", "state"] {
        let folder = Folder::with("protected", &call);
        fs::set_permissions(folder.place(), std::os::unix::fs::PermissionsExt::from_mode(0o777)).expect("a mode");
        folder.set_mode("results", 0o666);
        folder.set_mode("state", 0o666);
        let Some(mut command) = as_user(&folder, &run_listing().get_program().to_string_lossy()) else { return Ok(()) };
        command.args(folder.arguments("3"));
        folder.set_mode(name, 0o444);
        let before = folder.entries();
        is_error(&said(&mut command), name)?;
        is_unchanged(&folder, &before)?;
        folder.set_mode(name, 0o666);
        is_answer(&folder, &call, &said(&mut command))?;
    }
    Ok(())
}

/// No new file can be made.
fn protected_folder() -> Result<(), String> {
    let call = counting(1);
    let folder = Folder::with("protected_folder", &call);
    folder.set_mode("results", 0o666);
    folder.set_mode("state", 0o666);
    let Some(mut command) = as_user(&folder, &run_listing().get_program().to_string_lossy()) else { return Ok(()) };
    let before = folder.entries();
    fs::set_permissions(folder.place(), std::os::unix::fs::PermissionsExt::from_mode(0o555)).expect("a mode");
    let said = said(command.args(folder.arguments("3")));
    fs::set_permissions(folder.place(), std::os::unix::fs::PermissionsExt::from_mode(0o755)).expect("a mode");
    is_error(&said, "")?;
    is_unchanged(&folder, &before)
}
