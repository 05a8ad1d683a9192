//! Whether the archives are those of the sources: the check and the calls are timed from two of them.

use std::fs;
use std::path::{Path, PathBuf};
use std::time::SystemTime;

fn changed(path: &Path) -> Option<SystemTime> {
    fs::metadata(path).ok()?.modified().ok()
}

/// The sources of all crates.
fn sources(repository: &Path) -> Vec<PathBuf> {
    let crates = fs::read_dir(repository.join("crates")).into_iter().flatten().flatten();
    let files = crates.flat_map(|one| fs::read_dir(one.path().join("src")).into_iter().flatten().flatten());
    files.map(|file| file.path()).collect()
}

/// An archive that is older than a source, and that source.
pub fn stale(repository: &Path) -> Option<String> {
    let newest = sources(repository).into_iter().max_by_key(|file| changed(file))?;
    ["libeidrovang.a", "libbench_exports.a"].into_iter().find_map(|name| {
        let built = changed(&repository.join("target/native").join(name))?;
        (built < changed(&newest)?).then(|| format!("{name} is older than {}", newest.display()))
    })
}
