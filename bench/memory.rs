//! Peak memory and stack of `station_air`, by the length of its record. Linux only.

use crate::field::record;
use std::fs::{self, File};
use std::io::{self, Read, Write};
use std::process::Command;
use std::thread::sleep;
use std::time::Duration;

const PROGRAM: &str = "target/bin/station_air";
const RECORD: &str = "target/oracle/record";

/// What a pipe holds.
const PIPE: usize = 65536;

pub fn measure() {
    println!(
        "{:<42}{:>14}{:>12}{:>12}",
        "station_air, kB", "peak resident", "of stack", "of heap"
    );
    let altitude = record(&[(1, 1586.0)]);
    let humid = record(&[(1, 1586.0), (2, 24.0), (3, 841.9), (5, 32.0)]);
    let with_junk = |length: usize| [&humid[..], &vec![0xFF; length]].concat();
    for (name, record) in [
        ("11 bytes", &altitude),
        ("44 bytes, humid", &humid),
        ("44 bytes and 256 of junk", &with_junk(256)),
        ("44 bytes and 1 MiB of junk", &with_junk(1 << 20)),
    ] {
        let [peak, stack, heap] = peak(record).expect(PROGRAM);
        println!("{name:<42}{peak:>14}{stack:>12}{heap:>12}");
    }
}

/// Of the program once it has its answer: it stands still in its first write, to a pipe that is full.
fn peak(record: &[u8]) -> io::Result<[u64; 3]> {
    fs::write(RECORD, record)?;
    let (mut reader, mut writer) = io::pipe()?;
    writer.write_all(&[0; PIPE])?;
    let mut program = Command::new(PROGRAM)
        .env_clear()
        .stdin(File::open(RECORD)?)
        .stdout(writer)
        .spawn()?;
    let of = |file: &str| fs::read_to_string(format!("/proc/{}/{file}", program.id()));
    while !of("status")?.contains("State:\tS") {
        sleep(Duration::from_millis(1));
    }
    let peak = kilobytes(&of("status")?, "VmHWM:");
    let maps = of("smaps")?;
    let resident = |map: &str| {
        maps.split_once(map)
            .map_or(0, |(_, of)| kilobytes(of, "Rss:"))
    };
    let sizes = [peak, resident("[stack]"), resident("[heap]")];
    reader.read_to_end(&mut Vec::new())?;
    program.wait()?;
    Ok(sizes)
}

/// The number after a name in a file of /proc.
fn kilobytes(file: &str, name: &str) -> u64 {
    let line = file.lines().find_map(|line| line.strip_prefix(name));
    let size = line.and_then(|line| line.trim().strip_suffix(" kB"));
    size.and_then(|size| size.parse().ok()).expect(name)
}
