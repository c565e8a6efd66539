//! Shim: banned addresses. Nobody connects here, so the list is empty and matches nobody.

use std::net::IpAddr;
use std::path::{Path, PathBuf};

pub struct Ban;

pub struct Target;

impl Target {
    pub fn matches(&self, _ip: IpAddr) -> bool {
        false
    }
}

pub struct Bans;

impl Bans {
    pub fn new(_path: PathBuf, _loaded: Vec<Ban>) -> Bans {
        Bans
    }

    pub fn sweep(&self) {}
}

pub fn load(_path: &Path) -> Result<Vec<Ban>, String> {
    Ok(Vec::new())
}
