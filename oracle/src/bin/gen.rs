//! gen: makes call files.
//!
//! gen SEED PROFILE CALLS   a random file of a profile, to standard output
//! gen profiles             lists the profiles
//! gen corner NAME          the file of a corner of document 01
//! gen corners              lists the corners
//! gen expected NAME        what document 01 says a corner prints
//! gen bytes NAME           how many bytes held document 02 says of a corner, after the Rust has held as many
//! gen calls <TEXT          the file a text of calls describes
//! gen show <FILE           the calls of a file as text
//!
//! gen --station ..         the same for stations (document 02 §1)

use std::env;
use std::io::{self, Read, Write};
use std::process::ExitCode;

use destination_oracle::harness::callfile::{self, Call, BLOCK};
use destination_oracle::harness::corners;
use destination_oracle::harness::engine::Engine;
use destination_oracle::harness::generate::{self, Profile, StationProfile};
use destination_oracle::harness::held::Held;
use destination_oracle::harness::station::Station;
use destination_oracle::harness::text::{self, Script};
use destination_oracle::harness::whole::Whole;

const USAGE: &str =
    "usage: gen [--station] SEED PROFILE CALLS | profiles | corner NAME | corners | expected NAME | bytes NAME | calls | show";

fn main() -> ExitCode {
    let arguments: Vec<String> = env::args().skip(1).collect();
    let arguments: Vec<&str> = arguments.iter().map(String::as_str).collect();
    let made = match arguments[..] {
        ["--station", ref rest @ ..] => run(true, rest),
        ref rest => run(false, rest),
    };
    match made {
        Ok(bytes) => match io::stdout().lock().write_all(&bytes) {
            Ok(()) => ExitCode::SUCCESS,
            Err(_) => ExitCode::FAILURE,
        },
        Err(e) => {
            eprintln!("gen: {e}");
            ExitCode::from(64)
        }
    }
}

fn run(station: bool, arguments: &[&str]) -> Result<Vec<u8>, String> {
    match *arguments {
        ["profiles"] if station => Ok(lines(generate::station_names().map(str::to_string))),
        ["profiles"] => Ok(lines(generate::names().map(str::to_string))),
        ["corners"] => Ok(lines(
            corners::all(station).map(|c| format!("{}: {}", c.name, c.claim)),
        )),
        ["corner", name] => Ok(corners::find(station, name)?.file),
        ["expected", name] => Ok(corners::find(station, name)?.expected.into_bytes()),
        ["bytes", name] if station => station_bytes(&corners::find(station, name)?),
        ["bytes", name] => bytes(&corners::find(station, name)?),
        ["calls"] => {
            let input = String::from_utf8(input()?).map_err(|e| e.to_string())?;
            Ok(text::read(&input)?.file)
        }
        ["show"] if station => Ok(show(&input()?, text::station_line)),
        ["show"] => Ok(show(&input()?, text::line)),
        [seed, profile, calls] => {
            let seed = seed.parse().map_err(|_| format!("not a seed: {seed}"))?;
            let calls = calls
                .parse()
                .map_err(|_| format!("not a number of calls: {calls}"))?;
            let unknown = format!("no profile is named {profile}");
            if station {
                let profile = StationProfile::find(profile).ok_or(unknown)?;
                return Ok(generate::station_file(seed, profile, calls));
            }
            Ok(generate::file(
                seed,
                Profile::find(profile).ok_or(unknown)?,
                calls,
            ))
        }
        _ => Err(USAGE.to_string()),
    }
}

fn input() -> Result<Vec<u8>, String> {
    let mut bytes = Vec::new();
    io::stdin()
        .lock()
        .read_to_end(&mut bytes)
        .map_err(|e| e.to_string())?;
    Ok(bytes)
}

fn lines(items: impl Iterator<Item = String>) -> Vec<u8> {
    items.map(|line| line + "\n").collect::<String>().into_bytes()
}

/// Runs a corner on the broker; each number of bytes that its text gives has to be the broker's side's.
fn bytes(corner: &Script) -> Result<Vec<u8>, String> {
    let mut engine = Engine::new();
    held_as_told(corner, |call| {
        engine.call(call);
        engine.opened().map(|o| Held::of(o, &Whole::of(o)).bytes())
    })
}

/// The same of a station's corner, where all open destinations count.
fn station_bytes(corner: &Script) -> Result<Vec<u8>, String> {
    let mut station = Station::new();
    held_as_told(corner, |call| {
        station.call(call);
        Some(station.bytes())
    })
}

/// `held` runs a call and gives the bytes held after it.
fn held_as_told(corner: &Script, mut held: impl FnMut(&Call) -> Option<u64>) -> Result<Vec<u8>, String> {
    let calls: Vec<Call> = corner
        .file
        .chunks(BLOCK)
        .map_while(callfile::calls_of)
        .flatten()
        .collect();
    let mut wanted = corner.bytes.iter().peekable();
    for (index, call) in calls.iter().enumerate() {
        let held = held(call);
        while let Some((_, bytes)) = wanted.next_if(|(after, _)| *after == index + 1) {
            if held != Some(*bytes) {
                return Err(format!(
                    "after call {index}: {bytes} bytes by the text, {held:?} by the broker"
                ));
            }
        }
    }
    Ok(format!("{}\n", corner.bytes.len()).into_bytes())
}

fn show(file: &[u8], line: fn(&Call) -> String) -> Vec<u8> {
    let mut shown = Vec::new();
    for (k, block) in file.chunks(BLOCK).enumerate() {
        let Some(calls) = callfile::calls_of(block) else {
            shown.push(format!("# block {k} is broken"));
            break;
        };
        shown.extend(calls.iter().map(line));
        if calls.len() < callfile::CALLS {
            shown.push("block".to_string());
        }
    }
    lines(shown.into_iter())
}
