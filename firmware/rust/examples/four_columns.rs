//! Four columns agree on a record of one byte, over buffers. Columns 1 and 2 hold 41, column 3 holds 42 (hexadecimal); column 4 lies to every neighbour:
//! it tells column 1 that it holds 41 and reports twice, column 2 the same without the second report, and column 3 nothing.
use locker_column::{BLANK, Column, Protocol::Agreement, Refusal, rounds, values};

const N: usize = 4;
const M: usize = 1;

/// What column 4 tells each column, from the first round on; after that it is silent.
const LIES: [&[u16]; N] = [&[0x41, 0x41, 1, 1], &[0x41, 0x41, 1], &[], &[]];

fn main() -> Result<(), Refusal> {
    let held = [[0x41], [0x41], [0x42]];
    let mut columns = Vec::new();
    for (i, record) in held.iter().enumerate() {
        columns.push(Column::fresh(N as u32, M as u32, i as u32 + 1, record)?);
    }

    let mut said = 0;
    for round in 1..=rounds(Agreement, N as u32) {
        let width = values(Agreement, N as u32, M as u32, round as u32);
        // What each column wrote in this round, by sender.
        let mut mail = vec![vec![BLANK; N * width]; N];
        for (column, out) in columns.iter_mut().zip(&mut mail) {
            column.speak(out)?;
        }
        for (to, lies) in LIES.iter().enumerate() {
            for k in 0..width {
                mail[N - 1][to * width + k] = *lies.get(said + k).unwrap_or(&BLANK);
            }
        }
        said += width;
        for (i, column) in columns.iter_mut().enumerate() {
            let inbox: Vec<u16> = mail.iter().flat_map(|out| &out[i * width..(i + 1) * width]).copied().collect();
            column.listen(&inbox)?;
        }
    }

    println!("wall {N} {M} t 1 d 0 blocks 1 rounds {}", rounds(Agreement, N as u32));
    for (i, column) in columns.iter().enumerate() {
        let entry = column.outcome()?;
        let record = entry.record().map_or("none".into(), |r| format!("{:02x}", r[0]));
        println!("{} sound grade {} bit {} record {record}", i + 1, entry.grade, entry.vote);
    }
    println!("4 unsound");
    Ok(())
}
