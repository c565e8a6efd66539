//! Calls as lines of text: a name and its arguments.
//!
//! `name NUMBER ...`    a call; missing arguments are 0, up to eight may be given
//! `code NUMBER ...`    a call by its code
//! `raw NUMBER ...`     a call by its word 0, as `showcalls` writes it
//! `@D name NUMBER ...` a call for destination D of a station; without `@D` for destination 0; also before `code`
//! `start`              starts a station
//! `for A B: LINE`      the line for each number from A to B, `$` being the number
//! `block`              ends the block, though it is not full
//! `break check`        the last block gets a wrong check
//! `break count NUMBER` the last block gets this count, with a check to match
//! `break byte NUMBER`  the byte there changes, and the check does not
//! `break short NUMBER` only so many bytes of the last block are written
//! `bytes NUMBER`       so many bytes are held after the calls so far, by document 02 §3
//! `> LINE`             a line of the expected output; `> for A B: LINE` also works
//! `# ...`              a remark

use super::arguments;
use super::callfile::{self, code, Call, BLOCK, CALLS};
use super::station::{self, NAME_AT};

/// Names of calls, by code.
const NAMES: [&str; 16] = [
    "open",
    "enqueue",
    "join",
    "leave",
    "ack",
    "pull",
    "timeout",
    "prefetch",
    "unmark",
    "sweep",
    "clear",
    "add_producer",
    "remove_producer",
    "duplicate",
    "release_audits",
    "release",
];

/// A call file being written.
#[derive(Default)]
struct Blocks {
    bytes: Vec<u8>,
    calls: Vec<Call>,
    made: usize,
    held: Vec<(usize, u64)>,
}

impl Blocks {
    fn add(&mut self, call: Call) {
        self.calls.push(call);
        self.made += 1;
        if self.calls.len() == CALLS {
            self.end_block();
        }
    }

    fn end_block(&mut self) {
        if !self.calls.is_empty() {
            self.bytes.extend(callfile::block_of(&self.calls));
            self.calls.clear();
        }
    }

    /// Takes the last block, changes it and puts it back.
    fn change(&mut self, change: impl FnOnce(&mut [u8; BLOCK])) -> Result<(), String> {
        self.end_block();
        let at = self
            .bytes
            .len()
            .checked_sub(BLOCK)
            .ok_or("there is no block to break")?;
        let mut block: [u8; BLOCK] = self.bytes[at..]
            .try_into()
            .map_err(|_| "the last block is short")?;
        change(&mut block);
        self.bytes.truncate(at);
        self.bytes.extend(block);
        Ok(())
    }

    fn damage(&mut self, words: &[&str]) -> Result<(), String> {
        match words {
            ["check"] => self.change(|block| {
                let sum = callfile::check(block);
                callfile::set_check(block, sum + 1);
            }),
            ["count", count] => {
                let count = number(count)? as u32;
                self.change(|block| callfile::set_count(block, count))
            }
            ["byte", place] => {
                let place = number(place)? as usize;
                self.change(|block| block[place] ^= 1)
            }
            ["short", bytes] => {
                let bytes = number(bytes)? as usize;
                self.change(|_| ())?;
                let at = self.bytes.len() - BLOCK;
                self.bytes.truncate(at + bytes);
                Ok(())
            }
            _ => Err(format!("unknown damage: {}", words.join(" "))),
        }
    }
}

/// The call file and the expected output a text describes.
pub struct Script {
    pub file: Vec<u8>,
    pub expected: String,
    /// After so many calls, so many bytes are held.
    pub bytes: Vec<(usize, u64)>,
}

pub fn read(text: &str) -> Result<Script, String> {
    let mut blocks = Blocks::default();
    let mut expected = String::new();
    for (k, line) in text.lines().enumerate() {
        read_line(line, &mut blocks, &mut expected).map_err(|e| format!("line {}: {e}", k + 1))?;
    }
    blocks.end_block();
    Ok(Script {
        file: blocks.bytes,
        expected,
        bytes: blocks.held,
    })
}

fn read_line(line: &str, blocks: &mut Blocks, expected: &mut String) -> Result<(), String> {
    let line = line.split('#').next().unwrap_or_default().trim();
    if let Some(output) = line.strip_prefix("> ") {
        for output in repeated(output)? {
            expected.push_str(&output);
            expected.push('\n');
        }
        return Ok(());
    }
    for line in repeated(line)? {
        let words: Vec<&str> = line.split_whitespace().collect();
        match words[..] {
            [] => {}
            ["block"] => blocks.end_block(),
            ["break", ref how @ ..] => blocks.damage(how)?,
            ["bytes", held] => blocks.held.push((blocks.made, number(held)?)),
            [place, ref call @ ..] if place.starts_with('@') => {
                let (place, call) = (number(&place[1..])?, read_call(call)?);
                if place >> 56 != 0 || call.code > 255 {
                    return Err("a destination's number or a code is too large".into());
                }
                blocks.add(station::placed(place, &call));
            }
            ["raw", word, ref args @ ..] => blocks.add(call(number(word)?, args)?),
            ref call => blocks.add(read_call(call)?),
        }
    }
    Ok(())
}

/// A call by its name or its code.
fn read_call(words: &[&str]) -> Result<Call, String> {
    match words {
        [] => Err("a destination's number wants a call".into()),
        ["code", code, args @ ..] => call(number(code)?, args),
        ["start", args @ ..] => call(code::START, args),
        [name, args @ ..] => {
            let code = NAMES
                .iter()
                .position(|n| n == name)
                .ok_or(format!("unknown call: {name}"))?;
            call(code as u64, args)
        }
    }
}

/// The lines of a `for`, or the line itself.
fn repeated(line: &str) -> Result<Vec<String>, String> {
    let Some(rest) = line.strip_prefix("for ") else {
        return Ok(vec![line.to_string()]);
    };
    let (range, body) = rest.split_once(':').ok_or("a `for` wants a colon")?;
    let ends: Vec<&str> = range.split_whitespace().collect();
    let [first, last] = ends[..] else {
        return Err("a `for` wants two numbers".into());
    };
    let (first, last) = (number(first)? as i64, number(last)? as i64);
    Ok((first..=last)
        .map(|k| body.trim().replace('$', &k.to_string()))
        .collect())
}

fn call(code: u64, words: &[&str]) -> Result<Call, String> {
    if words.len() > 8 {
        return Err("a call has eight arguments".into());
    }
    let args: Vec<u64> = words.iter().map(|w| number(w)).collect::<Result<_, _>>()?;
    Ok(Call::new(code, &args))
}

/// A word: any u64, or any i64 as two's complement.
fn number(word: &str) -> Result<u64, String> {
    word.parse::<u64>()
        .or_else(|_| word.parse::<i64>().map(|n| n as u64))
        .map_err(|_| format!("not a number of 64 bits: {word}"))
}

/// A station's call as a line.
pub fn station_line(call: &Call) -> String {
    let (place, own) = station::place_of(call);
    let call = Call { code: own, ..*call };
    let text = match own {
        code::START => format!("start{}", shown(&call, 0)),
        code::OPEN => format!("open{}", shown(&call, NAME_AT + 1)),
        _ => line(&call),
    };
    if place == 0 {
        text
    } else {
        format!("@{place} {text}")
    }
}

/// A call as a line; words that are large as unsigned numbers are written as signed ones.
pub fn line(call: &Call) -> String {
    let name = usize::try_from(call.code).ok().and_then(|code| NAMES.get(code));
    let name = match name {
        Some(name) => name.to_string(),
        None => format!("code {}", call.code),
    };
    name + &shown(call, arguments::words_used(call.code).unwrap_or(0))
}

/// So many words of a call, and those up to the last that is not 0.
fn shown(call: &Call, used: usize) -> String {
    let last_set = call.args.iter().rposition(|a| *a != 0).map_or(0, |at| at + 1);
    let words = &call.args[..used.max(last_set)];
    words.iter().map(|word| format!(" {}", *word as i64)).collect()
}
