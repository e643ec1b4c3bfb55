#!/usr/bin/env python3
"""Drives a world of 4 nodes through 100,000 turns of transfers, and prints nanoseconds a turn, the least and the middle of
nine runs, and bytes kept a turn.

    python3 bench/turns.py

The program below is a crate of no gate: a copy of the crates is made in a folder of its own, with one crate more, proved
and built there (`rt run`). Bytes kept are the greatest resident set of the program with the turns less that without them,
so with the journal and what the places hold.
"""
import pathlib
import shutil
import subprocess
import sys
import tempfile

HERE = pathlib.Path(__file__).resolve().parent.parent
RUNS = 9

PROGRAM = r"""//! Transfers between 200 accounts, by 4 nodes in one world.
#![tactic(auto)]

use std::alloc::Global;
use std::process::ExitCode;
use std::time::Instant;
use std::{env, io};
use tl_algebra::{Condition, Edit, Expression, Operator, SetColumn, Side, Step};
use tl_base::{Boxed, Items, NoMemory, NodeId, Settings, Text};
use tl_isolation::{Bound, Script, Session};
use tl_schema::{Catalog, Column, OpeningRow, Table};
use tl_values::{Comparison, Kind, Row, Value};
use tl_world::World;

fn column(alloc: Global, name: &str) -> Result<Column, NoMemory> {
    Ok(Column {
        name: Text::from_str(alloc, name)?,
        kind: Kind::Int,
        not_null: true,
    })
}

fn catalog(alloc: Global) -> Result<Catalog, NoMemory> {
    let mut columns = Items::new(alloc);
    columns.push(column(alloc, "id")?)?;
    columns.push(column(alloc, "balance")?)?;
    let mut tables = Items::new(alloc);
    tables.push(Table {
        name: Text::from_str(alloc, "account")?,
        columns,
        key: Items::from_slice(alloc, &[0])?,
        indexes: Items::new(alloc),
    })?;
    Ok(Catalog { tables })
}

/// UPDATE account SET balance = balance BY amount WHERE id = this
fn change(alloc: Global, id: i64, by: Operator, amount: i64) -> Result<Bound, NoMemory> {
    let mut rest = Items::new(alloc);
    rest.push(Step {
        by,
        of: Expression::Literal(Value::Int(amount)),
    })?;
    let mut sets = Items::new(alloc);
    sets.push(SetColumn {
        column: 1,
        value: Expression::Chain {
            first: Boxed::new(alloc, Expression::Place(1))?,
            rest,
        },
    })?;
    let filter = Condition::Test {
        left: Side::Place(0),
        by: Comparison::Equal,
        right: Side::Literal(Value::Int(id)),
    };
    Ok(Bound::Change {
        edit: Edit::Update {
            table: 0,
            sets,
            filter: Some(filter),
        },
    })
}

fn draw(seed: &mut u64) -> i64 {
    *seed = seed.wrapping_mul(1_103_515_245).wrapping_add(12_345) % 2_147_483_648;
    (*seed / 65_536) as i64
}

fn script(alloc: Global) -> Result<Script, NoMemory> {
    let mut rows = Items::new(alloc);
    for id in 1..201 {
        let mut row = Row::new(alloc);
        row.push(Value::Int(id))?;
        row.push(Value::Int(1000))?;
        rows.push(OpeningRow { table: 0, row })?;
    }
    let mut seed = 7;
    let mut sessions = Items::new(alloc);
    for number in 1..5 {
        let mut statements = Items::new(alloc);
        for _ in 0..2500 {
            let from = 1 + draw(&mut seed) % 200;
            let to = 1 + draw(&mut seed) % 200;
            let amount = 1 + draw(&mut seed) % 100;
            statements.push(Bound::Begin)?;
            statements.push(change(alloc, from, Operator::Subtract, amount)?)?;
            statements.push(change(alloc, to, Operator::Add, amount)?)?;
            statements.push(Bound::Commit)?;
        }
        if let Some(node) = NodeId::new(number) {
            sessions.push(Session { node, statements })?;
        }
    }
    Ok(Script {
        catalog: catalog(alloc)?,
        rows,
        sessions,
        turns: Items::new(alloc),
        vanishes: Items::new(alloc),
    })
}

fn turns(world: &mut World, rounds: u32) -> Result<(), NoMemory> {
    for _ in 0..rounds {
        for number in 1..5 {
            if let Some(node) = NodeId::new(number) {
                let _turned = world.turn(node)?;
            }
        }
    }
    Ok(())
}

fn world(alloc: Global) -> Result<World, NoMemory> {
    let settings = Settings {
        shards: 4,
        managers: 1,
        fan: 32,
        budget: 100_000,
        threads: false,
    };
    World::new(alloc, &script(alloc)?, &settings)
}

fn main(rt: HostRuntime) -> io::Result<ExitCode> {
    let rounds = if env::args(&rt)?.len() > 1 { 0 } else { 25_000 };
    let Ok(mut world) = world(rt.alloc()) else {
        return Ok(ExitCode::from(5));
    };
    let begin = Instant::now(&rt)?;
    if turns(&mut world, rounds).is_err() {
        return Ok(ExitCode::from(5));
    }
    let took = begin.elapsed(&rt)?.as_nanos();
    println!(rt; "{} {took}", world.events().len())?;
    Ok(ExitCode::from(0))
}
"""


def libraries(lines, name):
    """The crates that this one stands on, as crates.txt lists them."""
    return next(line.split(":")[1].strip() for line in lines if line.startswith(name + ":"))


def built(folder):
    """The program, proved and built."""
    made = subprocess.run(["rt", "run"], cwd=folder, capture_output=True, text=True)
    program = folder / "out" / folder.name
    if made.returncode or not program.exists():
        sys.exit(made.stdout + made.stderr)
    return program


def run(program, words):
    """The events, the nanoseconds they took, and the greatest resident set in kilobytes."""
    timed = subprocess.run(["/usr/bin/time", "-f", "%M", program] + words, capture_output=True, text=True, check=True)
    events, took = timed.stdout.split()
    return int(events), int(took), int(timed.stderr.split()[-1])


with tempfile.TemporaryDirectory() as home:
    copy = pathlib.Path(home)
    shutil.copytree(HERE / "crates", copy / "crates")
    shutil.copy(HERE / "HANDLES", copy)
    lines = (HERE / "crates.txt").read_text().splitlines()
    lines.append("turns: tl_world " + libraries(lines, "tl_world"))
    (copy / "crates.txt").write_text("\n".join(lines) + "\n")
    crate = copy / "crates" / "turns"
    (crate / "src").mkdir(parents=True)
    (crate / "src" / "main.rt").write_text(PROGRAM)
    program = built(crate)
    runs = [run(program, []) for _ in range(RUNS)]
    events, _, whole = runs[0]
    _, _, none = run(program, ["none"])
    took = sorted(took // events for _, took, _ in runs)
    kept = (whole - none) * 1024 // events
    print(f"{events} turns, {took[0]} ns a turn at least, {took[RUNS // 2]} in the middle, {kept} bytes kept a turn")
