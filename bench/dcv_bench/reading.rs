// What is measured of the reader of automaton texts: a text is read in which most lines are suffixes, of which there may be any number.
use anyhow::{Result, bail};
use dcv_automaton_read::automaton_read;
use std::alloc::Global;
use std::time::{CpuClock, Duration};

// An automaton of two states, before its suffixes but the first.
const AUTOMATON: &str =
    "automaton 1\nvariables p\nstates 2\nnode n0 p ? t1 : t0\nstate 0 reject n0\nstate 1 accept n0\n\
    access 0 start 0\naccess 1 start 1\nsuffix 0 empty\n";

// Reads a text with so many suffixes again and again, and tells how long it is, and the processor time of all times.
pub(crate) fn measure<R: CpuClock>(
    rt: &R,
    alloc: Global,
    suffixes: u32,
    times: u32,
) -> Result<(usize, Duration)> {
    let text = text_of(alloc, suffixes)?;
    let mut time = Duration::ZERO;
    for _ in 0..times {
        let start = rt.process_cpu_time()?;
        read(alloc, text.as_bytes(), suffixes)?;
        time = time.saturating_add(rt.process_cpu_time()?.saturating_sub(start));
    }
    Ok((text.len(), time))
}

// The text with so many suffixes, each a letter before the one before it.
fn text_of(alloc: Global, suffixes: u32) -> Result<String> {
    let mut text = String::from_str(alloc, AUTOMATON)?;
    for number in 1..suffixes {
        write!(text, "suffix {number} 1 {}\n", number - 1)?;
    }
    text.push_str("end\n")?;
    Ok(text)
}

// Reads it once.
fn read(alloc: Global, text: &[u8], suffixes: u32) -> Result<()> {
    if text.len() > u32::MAX as usize {
        bail!("the text is too long");
    }
    match automaton_read(alloc, text) {
        Ok(file) if file.suffixes().len() == suffixes as usize => Ok(()),
        _ => bail!("the text was not read"),
    }
}
