//! A plain usage control monitor without proofs: what the proved program is measured against.
//!
//!     ucon_baseline [STRATEGY] trial | check | gen SEED SIZE | play JOURNAL | document SEED SIZE
//!
//! It answers as the proved program does, but isn't sparing of memory: want of it ends the process. `document` prints
//! the document that `gen` runs. STRATEGY is index (if none is given), grouped or recheck: how a step finds the sessions
//! to judge again.

mod document;
mod engine;
mod generator;
mod groups;
mod journal;
mod names;
mod policy;
mod state;
mod syntax;
mod tokens;
mod typing;
mod work_list;

use document::{Command, Line, Parts};
use engine::{put_number, Engine, Step, Strategy};
use journal::{gate_of, Journal};
use names::Names;
use policy::{Policy, PolicyFault};
use std::io::{self, Read, Write};
use std::ops::Range;

const DOCUMENT_BYTES: usize = 4_194_304;
const GENERATED_LINES: u64 = 100_000;

fn end(status: i32, why: &str) -> ! {
    eprintln!("ucon: {why}");
    std::process::exit(status)
}

fn disk_fault() -> ! {
    end(6, "disk fault")
}

fn damaged(record: usize, gate: usize) -> ! {
    end(7, &format!("damaged record {record} at {gate}"))
}

fn input() -> Vec<u8> {
    let mut bytes = Vec::with_capacity(DOCUMENT_BYTES + 2);
    if io::stdin().lock().take(DOCUMENT_BYTES as u64 + 1).read_to_end(&mut bytes).is_err() {
        end(4, "source fault")
    }
    if bytes.len() > DOCUMENT_BYTES {
        end(11, "input too long")
    }
    bytes
}

fn emit(output: &[u8]) {
    if io::stdout().lock().write_all(output).is_err() {
        end(5, "sink fault")
    }
}

fn policy(bytes: &[u8], names: &mut Names) -> Result<Policy, PolicyFault> {
    typing::check(syntax::read(bytes, names)?, names)
}

/// A document that was accepted.
struct Document {
    policy: Policy,
    lines: Vec<Line>,
    parts: Parts,
}

fn read(bytes: &[u8], names: &mut Names) -> Document {
    let parts = document::divide(bytes);
    let policy = policy(&bytes[..parts.policy_end], names).unwrap_or_else(|fault| end(2, &format!("policy: {fault}")));
    let lines = document::script(bytes, &parts, names).unwrap_or_else(|fault| end(3, &format!("script: {fault}")));
    Document { policy, lines, parts }
}

fn put_line(output: &mut Vec<u8>, caller: u8, place: u64, reply: &[u8]) {
    put_number(output, u64::from(caller));
    output.push(b' ');
    put_number(output, place);
    output.push(b' ');
    output.extend_from_slice(reply);
    output.push(b'\n');
}

fn trial(strategy: Strategy) {
    let bytes = input();
    let mut names = Names::new();
    let document = read(&bytes, &mut names);
    let mut engine = Engine::new(&document.policy, &names, strategy);
    let mut output = Vec::with_capacity(bytes.len());
    let mut reply = Vec::new();
    let mut place = 0;
    for line in &document.lines {
        reply.clear();
        if engine.step(line.caller, &line.command, &mut reply) == Step::Changed {
            place += 1;
        }
        put_line(&mut output, line.caller, place, &reply);
    }
    emit(&output);
}

fn check() {
    let bytes = input();
    let mut names = Names::new();
    let document = read(&bytes, &mut names);
    let mut output = Vec::new();
    for right in &document.policy.rights {
        output.extend_from_slice(b"right ");
        output.extend_from_slice(names.get(right.name));
        for model in right.core_models() {
            output.push(b' ');
            output.extend_from_slice(model.as_bytes());
        }
        output.push(b'\n');
    }
    emit(&output);
}

fn gen(strategy: Strategy, seed: u64, size: u64) {
    let bytes = generator::generate(seed, size);
    let mut names = Names::new();
    let document = read(&bytes, &mut names);
    let mut engine = Engine::new(&document.policy, &names, strategy);
    let mut reply = Vec::new();
    let [mut steps, mut permitted, mut denied, mut waiting, mut ended, mut refused] = [0; 6];
    for line in &document.lines {
        reply.clear();
        match engine.step(line.caller, &line.command, &mut reply) {
            Step::Read => {}
            Step::Refused => refused += 1,
            Step::Changed => {
                steps += 1;
                match reply.split(|byte| *byte == b' ').next() {
                    Some(b"permitted") => permitted += 1,
                    Some(b"denied") => denied += 1,
                    Some(b"waiting") => waiting += 1,
                    Some(b"ended") => ended += 1,
                    _ => {}
                }
            }
        }
    }
    let (lines, revoked) = (document.lines.len(), engine.revoked);
    emit(
        format!(
            "lines {lines}\nsteps {steps}\npermitted {permitted}\ndenied {denied}\nwaiting {waiting}\n\
             ended {ended}\nrevoked {revoked}\nrefused {refused}\n"
        )
        .as_bytes(),
    );
}

/// A journal's payload behind the policy's: a client, a command's line, and the reply.
struct Entry {
    caller: u8,
    command: Command,
    reply: Range<usize>,
}

fn entry(bytes: &[u8], payload: &Range<usize>, names: &mut Names) -> Option<Entry> {
    let payload_bytes = &bytes[payload.clone()];
    let space = payload_bytes.iter().position(|byte| *byte == b' ')?;
    let newline = payload_bytes.iter().position(|byte| *byte == b'\n')?;
    let caller = document::client(&payload_bytes[..space])?;
    let command = document::command(payload_bytes.get(space + 1..newline)?, names).ok()?;
    Some(Entry { caller, command, reply: payload.start + newline + 1..payload.end })
}

/// What a journal holds, up to the first record that is damaged.
struct Found {
    policy: Option<Policy>,
    entries: Vec<Entry>,
    damaged: Option<(usize, usize)>,
}

fn found(journal: &Journal, names: &mut Names) -> Found {
    let mut found = Found { policy: None, entries: Vec::new(), damaged: journal.too_long };
    let Some((first, rest)) = journal.payloads.split_first() else { return found };
    match policy(&journal.old[first.clone()], names) {
        Ok(policy) => found.policy = Some(policy),
        Err(_) => damaged(0, gate_of(first)),
    }
    for (number, payload) in rest.iter().enumerate() {
        match entry(&journal.old, payload, names) {
            Some(entry) => found.entries.push(entry),
            None => {
                found.damaged = Some((number + 1, gate_of(payload)));
                break;
            }
        }
    }
    found
}

/// Answers a journal's entries again; each reply must be the one that it holds.
fn replay(engine: &mut Engine, journal: &Journal, found: &Found) {
    let mut reply = Vec::new();
    for (number, entry) in found.entries.iter().enumerate() {
        reply.clear();
        let step = engine.step(entry.caller, &entry.command, &mut reply);
        if step != Step::Changed || reply != journal.old[entry.reply.clone()] {
            damaged(number + 1, gate_of(&journal.payloads[number + 1]))
        }
    }
    if let Some((number, gate)) = found.damaged {
        damaged(number, gate)
    }
}

fn check_policy(journal: &Journal, wanted: &[u8]) {
    let Some(first) = journal.payloads.first() else { return };
    let kept = &journal.old[first.clone()];
    if kept != wanted {
        let same = kept.iter().zip(wanted).take_while(|(left, right)| left == right).count();
        end(10, &format!("other policy at {same}"))
    }
}

fn play(strategy: Strategy, path: &str) {
    let bytes = input();
    let mut names = Names::new();
    let document = read(&bytes, &mut names);
    let policy_bytes = &bytes[..document.parts.policy_end];
    let mut journal = match Journal::open(path) {
        Ok(Some(journal)) => journal,
        Ok(None) => end(8, "not a journal"),
        Err(_) => disk_fault(),
    };
    let found = found(&journal, &mut names);
    let mut engine = Engine::new(found.policy.as_ref().unwrap_or(&document.policy), &names, strategy);
    replay(&mut engine, &journal, &found);
    check_policy(&journal, policy_bytes);
    if journal.mend().is_err() || (journal.payloads.is_empty() && journal.append(&[policy_bytes]).is_err()) {
        disk_fault()
    }
    let place = found.entries.len() as u64;
    let (output, has_stopped) = play_lines(&mut engine, &mut journal, &bytes, &document.lines, place);
    emit(&output);
    if has_stopped {
        disk_fault()
    }
}

/// Answers the lines, each change once it is in the journal. Behind a fault of the disk nothing is answered.
fn play_lines(
    engine: &mut Engine,
    journal: &mut Journal,
    bytes: &[u8],
    lines: &[Line],
    mut place: u64,
) -> (Vec<u8>, bool) {
    let mut output = Vec::with_capacity(bytes.len());
    let mut reply = Vec::new();
    let mut has_stopped = false;
    for line in lines {
        if has_stopped {
            output.extend_from_slice(format!("{} - stopped\n", line.caller).as_bytes());
            continue;
        }
        reply.clear();
        if engine.step(line.caller, &line.command, &mut reply) == Step::Changed {
            place += 1;
            let caller = format!("{} ", line.caller);
            let text = &bytes[line.text.0 as usize..line.text.1 as usize];
            if journal.append(&[caller.as_bytes(), text, b"\n", &reply]).is_err() {
                has_stopped = true;
                output.extend_from_slice(format!("{} - disk fault\n", line.caller).as_bytes());
                continue;
            }
        }
        put_line(&mut output, line.caller, place, &reply);
    }
    (output, has_stopped)
}

fn seed_and_size(seed: &str, size: &str) -> (u64, u64) {
    let size = document::number(size.as_bytes(), GENERATED_LINES).filter(|size| *size > 0);
    match (document::number(seed.as_bytes(), u64::MAX), size) {
        (Some(seed), Some(size)) => (seed, size),
        _ => end(1, "usage"),
    }
}

fn main() {
    let words: Vec<String> = std::env::args().skip(1).collect();
    let words: Vec<&str> = words.iter().map(String::as_str).collect();
    let (strategy, words) = match words.split_first() {
        Some((&"index", rest)) => (Strategy::Index, rest),
        Some((&"grouped", rest)) => (Strategy::Grouped, rest),
        Some((&"recheck", rest)) => (Strategy::Recheck, rest),
        _ => (Strategy::Index, &words[..]),
    };
    match words {
        ["trial"] => trial(strategy),
        ["check"] => check(),
        ["play", path] if !path.is_empty() => play(strategy, path),
        ["gen", seed, size] => {
            let (seed, size) = seed_and_size(seed, size);
            gen(strategy, seed, size);
        }
        ["document", seed, size] => {
            let (seed, size) = seed_and_size(seed, size);
            emit(&generator::generate(seed, size));
        }
        _ => end(1, "usage"),
    }
}
