//! Makes each call that takes memory once, and writes how it ended: as ever, with the numbered want of memory, or otherwise. Then each
//! read and each write of the commands fails in turn, and last a writer takes 30 bytes and then fails. Where standard input has a byte,
//! the calls alone are made: so `.ci/growths` runs it, once for each growth, which is refused.
#![tactic(auto)]

mod commands;
mod endings;
mod library;
mod schedules;
mod served;
mod settlements;
mod stores;
mod streams;
mod transfers;

use endings::Ending;
use engine::Status;
use std::alloc::Global;
use std::io::Read;
use std::sync::Wait;
use std::thread::Threads;
use std::{io, str};
use streams::{Narrow, Turns};

// Whether the calls alone are asked for.
fn is_for_calls(rt: &HostRuntime) -> bool {
    let mut byte = [0u8; 1];
    match rt.reader().read(&mut byte) {
        Ok(read) => read > 0,
        Err(_) => false,
    }
}

fn write_ending<R: Print>(rt: &R, name: &str, number: &str, ending: Ending) -> io::Result<()> {
    match ending {
        Ending::Ordinary => println!(rt; "{name}: ordinary"),
        Ending::NoMemory => println!(rt; "{name}: {number}"),
        Ending::NotReached => println!(rt; "{name}: not reached"),
        Ending::Other => println!(rt; "{name}: another answer"),
    }
}

// Each call on programs and maps, and its number for want of memory.
fn write_calls(rt: &HostRuntime, alloc: Global) -> io::Result<()> {
    write_ending(rt, "assemble", "A0", library::assembled(alloc))?;
    write_ending(rt, "encode", "no memory", library::encoded(alloc))?;
    write_ending(rt, "decode", "D0", library::decoded(alloc))?;
    write_ending(rt, "disassemble", "no memory", library::disassembled(alloc))?;
    write_ending(rt, "verify", "V0", library::verified(alloc))?;
    write_ending(rt, "MapSet::open", "M4", library::maps_opened(alloc))?;
    write_ending(rt, "named_files", "no memory", library::files_named(alloc))?;
    write_ending(rt, "load_manifest", "C6", library::loaded(alloc))
}

// Each call on stores, and its number for want of memory.
fn write_store_calls(
    rt: &HostRuntime,
    alloc: Global,
    opened: Ending,
    opened_on: Ending,
) -> io::Result<()> {
    write_ending(rt, "Shelf::open", "K1", library::shelf_opened(alloc))?;
    write_ending(rt, "World::open", "O2", schedules::world_opened(alloc))?;
    write_ending(rt, "run_steps", "no memory", schedules::steps_run(alloc))?;
    write_ending(
        rt,
        "settle_node",
        "no memory",
        settlements::node_settled(alloc),
    )?;
    write_ending(rt, "settle", "no memory", settlements::store_settled(alloc))?;
    write_ending(rt, "Store::open", "O2", opened)?;
    write_ending(rt, "Store::open_on", "O2", opened_on)
}

// Each command.
fn write_commands<R: Threads + Wait + Sync + Print>(rt: &R, alloc: Global) -> io::Result<()> {
    for (name, command) in served::COMMANDS {
        let ending = commands::ending(rt, alloc, command);
        write_ending(rt, name, "no memory, status 4", ending)?;
    }
    Ok(())
}

// Each command, with each read and each write failing in turn.
fn write_transfers<R: Threads + Wait + Sync + Print>(rt: &R, alloc: Global) -> io::Result<()> {
    for (name, command) in served::COMMANDS {
        match transfers::failed_in_turn(rt, alloc, command) {
            Some(tried) => println!(rt;
                "{name}: {} reads and {} writes failed in turn",
                tried.reads, tried.writes
            )?,
            None => println!(rt; "{name}: another answer")?,
        }
    }
    Ok(())
}

// What stands where `run` was to write five lines, and its writer takes 30 bytes and then fails.
fn write_cut_off<R: Print>(rt: &R, alloc: Global) -> io::Result<()> {
    let writes = Turns::new(31);
    let mut out = Narrow::new(&writes, true);
    let status = transfers::counted(alloc, &mut out);
    match str::from_utf8(out.text()) {
        Ok(text) if status == Status::CannotWrite => {
            println!(rt; "run into a writer that takes 30 bytes: {text}")
        }
        _ => println!(rt; "run into a writer that takes 30 bytes: another answer"),
    }
}

fn main(rt: HostRuntime) -> io::Result<()> {
    let alloc = rt.alloc();
    let is_for_calls = is_for_calls(&rt);
    write_calls(&rt, alloc)?;
    let (opened, opened_on) = (stores::opened(&rt, alloc), stores::opened_on(&rt, alloc));
    write_store_calls(&rt, alloc, opened, opened_on)?;
    write_commands(&rt, alloc)?;
    if is_for_calls {
        return Ok(());
    }
    write_transfers(&rt, alloc)?;
    write_cut_off(&rt, alloc)
}
