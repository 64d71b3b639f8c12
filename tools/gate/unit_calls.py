"""The program of the calls that edits name as inputs: its `main` makes the calls whose numbers it is given, and prints
their values.
"""
from __future__ import annotations

import re
from pathlib import Path

from named_inputs import CALL

NAME = "unit_calls"
MAIN = """#![tactic(auto)]

use section_text::Feed;
use std::alloc::Global;
use std::env;
use std::hash::{{BuildHasher, Hasher}};
use std::process::ExitCode;
use std::rt::Runtime;

fn main(rt: HostRuntime) -> ExitCode {{
    let Ok(all) = env::args(&rt) else {{
        return ExitCode::FAILURE;
    }};
    let Ok(words) = all.skip(1).collect::<Vec<String>>(rt.alloc()) else {{
        return ExitCode::FAILURE;
    }};
    match answer(&rt, rt.alloc(), &words) {{
        Ok(()) => ExitCode::SUCCESS,
        Err(_) => ExitCode::FAILURE,
    }}
}}

fn answer<R: Runtime>(rt: &R, alloc: Global, words: &[String]) -> anyhow::Result<()> {{
    for word in words {{
        match word.as_str() {{
{arms}            _ => {{}}
        }}
    }}
    Ok(())
}}

fn feed_of(alloc: Global, text: &[u8]) -> Feed {{
    let mut feed = Feed::new(alloc);
    let _ = feed.push(text);
    feed.close();
    feed
}}
{functions}"""
ARM = '            "{number}" => call_{number}(rt, alloc)?,\n'
FUNCTION = """
fn call_{number}<R: Runtime>(rt: &R, alloc: Global) -> anyhow::Result<()> {{
    use {crate}::*;
    let shown = {{ {body} }};
    println!(rt; "{{shown:?}}")?;
    Ok(())
}}
"""


def write_calls(top: Path, calls: list[str]) -> None:
    """Adds the program of these calls to a copy of the sources."""
    parts = [found.groups() for it in calls if (found := CALL.fullmatch(it))]
    arms = "".join(ARM.format(number=number) for number in range(len(parts)))
    functions = "".join(FUNCTION.format(number=number, crate=crate, body=body) for number,
                        (crate, body) in enumerate(parts))
    folder = top / "crates" / NAME / "src"
    folder.mkdir(parents=True)
    (folder / "main.rt").write_text(MAIN.format(arms=arms, functions=functions))
    known = {it.parent.parent.name for it in top.glob("crates/*/src/lib.rt")}
    used = known & {"section_text", *(crate for crate, _ in parts),
                    *(name for _, body in parts for name in re.findall(r"(\w+)::", body))}
    with open(top / "crates.txt", "a") as file:
        file.write(f"{NAME}: {' '.join(sorted(used))} anyhow\n")
