//! oracle [--state | --state-full | --queries | --bytes]: reads a call file from standard input, runs the
//! broker's destination, and prints what `runcalls` must print. With an option, also after each
//! call, once a destination is open: the whole state in a line, the queries' answers, or the bytes held.
//!
//! oracle --station [--state | --bytes | --counts]: reads a station's call file, and prints what `runstation` must print. With an option,
//! also after each call the state of each open destination or the bytes that all hold; or, instead of the lines, what was the broker's
//! doing and what the harness's reading of the papers.

use std::env;
use std::io::{self, BufWriter, Read, Write};
use std::process::ExitCode;

use destination_oracle::harness::callfile::{self, BLOCK};
use destination_oracle::harness::dump::{self, Audits};
use destination_oracle::harness::engine::{Engine, Opened};
use destination_oracle::harness::held::Held;
use destination_oracle::harness::queries;
use destination_oracle::harness::station::Station;

fn main() -> ExitCode {
    let arguments: Vec<String> = env::args().skip(1).collect();
    let arguments: Vec<&str> = arguments.iter().map(String::as_str).collect();
    if let ["--station", ref options @ ..] = arguments[..] {
        let shown = match options {
            [] => run_station(|_| String::new(), false),
            ["--state"] => run_station(|station| station.state_lines(), false),
            ["--bytes"] => run_station(|station| format!("h {}\n", station.bytes()), false),
            ["--counts"] => run_station(|_| String::new(), true),
            _ => return usage(),
        };
        return ended(shown);
    }
    let extra: fn(&Opened) -> String = match arguments[..] {
        [] => |_| String::new(),
        ["--state"] => |opened| dump::line(opened, Audits::Summed),
        ["--state-full"] => |opened| dump::line(opened, Audits::Listed),
        ["--queries"] => queries::lines,
        ["--bytes"] => Held::line,
        _ => return usage(),
    };
    ended(run(extra))
}

fn usage() -> ExitCode {
    eprintln!("usage: oracle [--state | --state-full | --queries | --bytes] <CALLFILE");
    eprintln!("       oracle --station [--state | --bytes | --counts] <CALLFILE");
    ExitCode::from(64)
}

fn ended(run: io::Result<()>) -> ExitCode {
    match run {
        Ok(()) => ExitCode::SUCCESS,
        Err(e) => {
            eprintln!("oracle: {e}");
            ExitCode::FAILURE
        }
    }
}

fn run(extra: fn(&Opened) -> String) -> io::Result<()> {
    let mut input = Vec::new();
    io::stdin().lock().read_to_end(&mut input)?;
    let mut out = BufWriter::new(io::stdout().lock());
    let mut engine = Engine::new();
    let mut index = 0u64;
    for (k, block) in input.chunks(BLOCK).enumerate() {
        let Some(calls) = callfile::calls_of(block) else {
            writeln!(out, "b {k}")?;
            break;
        };
        for call in calls {
            let reply = engine.call(&call);
            writeln!(out, "{index} {} {}", reply.refusal, reply.answer)?;
            for event in &reply.events {
                writeln!(out, "{event}")?;
            }
            if let Some(opened) = engine.opened() {
                write!(out, "{}", extra(opened))?;
            }
            index += 1;
        }
    }
    let s = engine.stats();
    writeln!(
        out,
        "= {} {} {} {} {}",
        s.enqueued, s.dequeued, s.expired, s.discarded, s.dispatched
    )?;
    out.flush()
}

fn run_station(extra: fn(&Station) -> String, counts: bool) -> io::Result<()> {
    let mut input = Vec::new();
    io::stdin().lock().read_to_end(&mut input)?;
    let mut text = String::new();
    let mut station = Station::new();
    let mut index = 0u64;
    for (k, block) in input.chunks(BLOCK).enumerate() {
        let Some(calls) = callfile::calls_of(block) else {
            text.push_str(&format!("b {k}\n"));
            break;
        };
        for call in calls {
            let reply = station.call(&call);
            text.push_str(&format!("{index} {} {}\n", reply.refusal, reply.answer));
            for sent in &reply.sent {
                text.push_str(&format!("{sent}\n"));
            }
            text.push_str(&extra(&station));
            index += 1;
        }
    }
    text.push_str(&station.last_lines());
    let shown = if counts { station.counts.lines() } else { text };
    io::stdout().lock().write_all(shown.as_bytes())
}
