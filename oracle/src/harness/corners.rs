//! The corners of document 01 and its example, and those of stations, as texts.
//!
//! A line `corner NAME: what is claimed` starts a corner; its lines are those of `text`.

use super::text::{self, Script};

const TEXTS: &str = include_str!("../../corners.txt");
const STATION_TEXTS: &str = include_str!("../../corners-station.txt");

pub struct Corner {
    pub name: &'static str,
    pub claim: &'static str,
    body: &'static str,
}

impl Corner {
    pub fn script(&self) -> Result<Script, String> {
        text::read(self.body).map_err(|e| format!("corner {}, {e}", self.name))
    }
}

/// The corners of a destination or of a station.
pub fn all(station: bool) -> impl Iterator<Item = Corner> {
    let texts = if station { STATION_TEXTS } else { TEXTS };
    texts.split("\ncorner ").skip(1).map(|section| {
        let (head, body) = section.split_once('\n').unwrap_or((section, ""));
        let (name, claim) = head.split_once(':').unwrap_or((head, ""));
        Corner {
            name: name.trim(),
            claim: claim.trim(),
            body,
        }
    })
}

pub fn find(station: bool, name: &str) -> Result<Script, String> {
    all(station)
        .find(|c| c.name == name)
        .ok_or(format!("no corner is named {name}"))?
        .script()
}
