//! A wall of processes: `driver PROGRAM [POSTER]` reads a sheet from standard input, starts PROGRAM for each sound column and carries the messages in
//! rounds; what an unsound column sends is read from its lines of the sheet. It prints what the wall's own program prints for the sheet, though each
//! outcome comes from a process that knows its own record and its own messages alone.
mod sheet;

use locker_column::Entry;
use sheet::{Lines, Sheet, entries, hex, number};
use std::io::{Error, Read, Result, Write};
use std::process::{Child, Command, Stdio};

/// One who speaks on the wall.
enum Speaker {
    /// A sound column, a process.
    Sound(Child),
    /// An unsound one, its lines.
    Unsound(Lines),
}

impl Speaker {
    fn start(program: &str, sheet: &Sheet, i: usize, poster: Option<&String>) -> Result<Speaker> {
        if let Some(lines) = &sheet.lines[i] {
            return Ok(Speaker::Unsound(lines.clone()));
        }
        let child = Command::new(program)
            .args([sheet.n, sheet.m, i + 1].map(|v| v.to_string()))
            .arg(hex(&sheet.records[i]))
            .args(poster)
            .stdin(Stdio::piped())
            .stdout(Stdio::piped())
            .spawn()
            .map_err(|e| Error::other(format!("{program} cannot be started: {e}")))?;
        Ok(Speaker::Sound(child))
    }

    /// What it says to each of n receivers in a round, counted from 0, whose messages have `width` values.
    fn said(&mut self, n: usize, round: usize, width: usize) -> Result<Vec<Vec<u8>>> {
        match self {
            Speaker::Sound(child) => Ok(read(child, n * width * 2)?.chunks(width * 2).map(<[u8]>::to_vec).collect()),
            Speaker::Unsound(lines) => Ok(lines.iter().map(|line| line[round].iter().flat_map(|v| v.to_le_bytes()).collect()).collect()),
        }
    }
}

/// The next bytes that a process writes.
fn read(child: &mut Child, len: usize) -> Result<Vec<u8>> {
    let mut bytes = vec![0; len];
    child.stdout.as_mut().expect("its output is a pipe").read_exact(&mut bytes)?;
    Ok(bytes)
}

/// All rounds: first everybody speaks, then every sound column listens.
fn run(speakers: &mut [Speaker], widths: &[usize]) -> Result<()> {
    let n = speakers.len();
    for (round, &width) in widths.iter().enumerate() {
        let mail = speakers.iter_mut().map(|speaker| speaker.said(n, round, width)).collect::<Result<Vec<_>>>()?;
        for (i, speaker) in speakers.iter_mut().enumerate() {
            if let Speaker::Sound(child) = speaker {
                let inbox: Vec<u8> = mail.iter().flat_map(|said| &said[i]).copied().collect();
                child.stdin.as_mut().expect("its input is a pipe").write_all(&inbox)?;
            }
        }
    }
    Ok(())
}

/// A column's line of the listing.
fn ended(speaker: &mut Speaker, m: usize) -> Result<String> {
    let Speaker::Sound(child) = speaker else {
        return Ok("unsound".into());
    };
    // An entry: mark, grade, vote, whether there is a record, and 32 bytes of it.
    let entry = read(child, size_of::<Entry>())?;
    let record = if entry[3] == 0 { "none".into() } else { hex(&entry[4..4 + m]) };
    match child.wait()?.success() {
        true => Ok(format!("sound grade {} bit {} record {record}", entry[1], entry[2])),
        false => Err(Error::other("a column's process did not end well")),
    }
}

fn main() -> Result<()> {
    let words: Vec<String> = std::env::args().collect();
    let [_, program, rest @ ..] = &words[..] else {
        return Err(Error::other("usage: driver PROGRAM [POSTER] <SHEET"));
    };
    let poster = rest.first();
    let mut bytes = Vec::new();
    std::io::stdin().read_to_end(&mut bytes)?;

    if let Err(refusal) = entries(&bytes, poster.map(|text| number(text))) {
        println!("refused {}", refusal.number());
        return Ok(());
    }

    let sheet = Sheet::of(&bytes, poster.is_some());
    let mut speakers = (0..sheet.n).map(|i| Speaker::start(program, &sheet, i, poster)).collect::<Result<Vec<_>>>()?;
    run(&mut speakers, &sheet.widths)?;

    println!("{}", sheet.heading());
    for (i, speaker) in speakers.iter_mut().enumerate() {
        println!("{} {}", i + 1, ended(speaker, sheet.m)?);
    }
    Ok(())
}
