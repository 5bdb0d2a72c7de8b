//! Stored ring pages of real guests: one folder for each snapshot.

use super::calls::Ring;
use super::replay::Stored;
use super::ring::rsp_prod;
use std::path::{Path, PathBuf};
use std::{fs, io};

/// The snapshot folders in `root`, in order of their names.
pub fn folders(root: &Path) -> io::Result<Vec<PathBuf>> {
    let mut found = Vec::new();
    for entry in fs::read_dir(root)? {
        let path = entry?.path();
        if path.is_dir() {
            found.push(path);
        }
    }
    found.sort();
    Ok(found)
}

/// The ring stored in a snapshot folder. The counter of slots consumed is the page's rsp_prod: the snapshots were
/// taken when every consumed slot had its reply.
pub fn load(folder: &Path) -> io::Result<Stored> {
    let transmit = folder.join("tx-ring.bin").exists();
    let (ring, file) =
        if transmit { (Ring::Transmit, "tx-ring.bin") } else { (Ring::Receive, "rx-ring.bin") };
    let page = fs::read(folder.join(file))?;
    let name = folder.file_name().unwrap_or_default();
    Ok(Stored {
        name: name.to_string_lossy().into_owned(),
        ring,
        consumed: rsp_prod(&page) as u32,
        page,
        grants: fs::read(folder.join("grants.bin"))?,
        window: fs::read(folder.join("window.bin"))?,
    })
}
