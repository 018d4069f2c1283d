//! The stored sessions of the repository's tests: the program `reference`, which their printouts were made by, still prints them.

use std::{
    ffi::OsStr,
    fs, io,
    path::{Path, PathBuf},
    process::Command,
};

#[test]
fn reference_prints_the_stored_printouts() -> io::Result<()> {
    let tests = Path::new(env!("CARGO_MANIFEST_DIR")).join("../tests");
    let sessions = differ(&tests.join("sessions"), "out")?;
    let vectors = differ(&tests.join("vectors"), "printout")?;
    assert_eq!((sessions, vectors), (vec![], vec![]));
    Ok(())
}

/// The sessions of a folder for which the program prints anything but the file with this ending.
fn differ(folder: &Path, ending: &str) -> io::Result<Vec<PathBuf>> {
    let mut found = Vec::new();
    let mut count = 0;
    for entry in fs::read_dir(folder)? {
        let session = entry?.path();
        if session.extension() != Some(OsStr::new("session")) {
            continue;
        }
        count += 1;
        let stored = fs::read(session.with_extension(ending))?;
        if printed(&session)? != stored {
            found.push(session);
        }
    }
    assert!(count > 0, "no session in {}", folder.display());
    Ok(found)
}

fn printed(session: &Path) -> io::Result<Vec<u8>> {
    let ran = Command::new(env!("CARGO_BIN_EXE_reference"))
        .arg(session)
        .env_remove("ORACLE_WRONG")
        .output()?;
    assert!(ran.status.success(), "{}", session.display());
    Ok(ran.stdout)
}
