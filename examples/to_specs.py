#!/usr/bin/env python3
"""Makes the specs of crates/curp_rows out of the examples in this folder.

An example is NAME.script, a header and steps, a JSON line each, and NAME.out, all that `curp play` writes for it. Its
spec has the header and the steps as terms, and the output as lines. specs/Lib.antt, which names all specs, is made too.
An example with a line that is refused has a NAME.status, with the exit status and the line on standard error; it has no
spec. That the program writes what the examples say is a case (cases/examples).

    examples/to_specs.py            writes the specs
    examples/to_specs.py --check    writes nothing, names the files that aren't what it would write, and ends with 1 if
                                    there are any
"""

import json
import re
import sys
from pathlib import Path

EXAMPLES = Path(__file__).resolve().parent
SPECS = EXAMPLES.parent / "crates" / "curp_rows" / "specs"
MADE = "-- Made by examples/to_specs.py"
USES = {
    "Example": "use Rattle.curp_rows.specs.Example.{Example, lines}",
    "One": "use Rattle.curp_msg.specs.declared.script.Protocol.TheVariants.{One}",
    "Two": "use Rattle.curp_msg.specs.declared.script.Protocol.TheVariants.{Two}",
    "command": "use Rattle.curp_cmd.specs.declared.command.Command.TheVariants as command",
    "keeper": "use Rattle.curp_cmd.specs.declared.node.Keeper.TheVariants as keeper",
    "step": "use Rattle.curp_msg.specs.declared.script.Step.TheVariants as step",
}
NODES = {"G": "manager_node", "C": "client_node", "M": "master_node", "B": "backup_node", "W": "witness_node"}
PRELUDE = ["true", "false", "[]", "◌∷◌", "replicate", "codes", "Some", "None"]


def listed(terms):
    """Terms as a list."""
    return " ∷ ".join(terms + ["[]"])


def bytes_term(digits):
    """Bytes that are given as hexadecimal digits: as a text where they are one, else as numbers."""
    numbers = bytes.fromhex(digits)
    if numbers and all(0x20 <= n < 0x7F and n not in b'"\\' for n in numbers):
        return f'(codes "{numbers.decode()}")'
    if len(numbers) > 1 and len(set(numbers)) == 1:
        return f"(replicate {len(numbers)} {numbers[0]})"
    return f"({listed([str(n) for n in numbers])})" if numbers else "[]"


def option_term(digits):
    """Bytes, or null."""
    return "None" if digits is None else f"(Some {bytes_term(digits)})"


def command_term(words):
    """A command, by its name and its keys and values."""
    name, values = words[0], words[1:]
    if name == "multi":
        pairs = [f"({bytes_term(key)}, {bytes_term(value)})" for key, value in zip(values[::2], values[1::2])]
        return f"(command.Multi ({listed(pairs)}))"
    if name == "condput":
        key, expected, value = values
        return f"(command.CondPut {bytes_term(key)} {option_term(expected)} {bytes_term(value)})"
    return f"(command.{name.capitalize()} {' '.join(map(bytes_term, values))})"


def node_term(name):
    """A node, by its name."""
    return NODES[name[0]] if name == "G" else f"({NODES[name[0]]} {name[1:]})"


def hash_term(digits):
    """A hash, by its hexadecimal digits."""
    return "0x" + "_".join(re.findall("....", digits))


# the arguments of each step, in their order, and how each is written
STEPS = {
    "invoke": [("client", str), ("cmd", command_term)],
    "deliver": [("msg", str)],
    "retry": [("client", str), ("seq", str)],
    "fetch": [("client", str)],
    "sync": [("master", str)],
    "collect": [("master", str)],
    "recover": [("part", str), ("backup", str), ("witness", str)],
    "replace": [("kind", lambda kind: f"keeper.{kind.capitalize()}"), ("part", str), ("place", str)],
    "migrate": [("lo", hash_term), ("hi", hash_term), ("to", str)],
    "nudge": [],
    "expire": [("client", str)],
    "stop": [("node", node_term)],
}


def step_term(line):
    """A step, by its line."""
    step = json.loads(line)
    name = step["do"]
    return " ".join([f"step.{name.capitalize()}"] + [write(step[field]) for field, write in STEPS[name]])


def header_term(line):
    """A header, by its line."""
    header = json.loads(line)
    fields = dict(header, fast=str(header["fast"]).lower(), protocol={1: "One", 2: "Two"}[header["protocol"]])
    return "record { " + "; ".join(f"{field} = {fields[field]}" for field in sorted(fields)) + " }"


def column(before, terms, after):
    """Terms as a list, one a line, between two texts."""
    if not terms:
        return f"{before} []{after}"
    return before + "\n      " + "\n      ∷ ".join(terms + ["[]"]) + after


def uses(body):
    """The lines that import what the body names."""
    names = set(re.findall(r"[\w∷\[\]]+", re.sub('"[^"]*"', "", body)))
    prelude = [name for name in PRELUDE if name.replace("◌", "") in names]
    nodes = sorted(names & set(NODES.values()))
    lines = [USES[alias] for alias in USES if alias in names]
    lines += [f"use Rattle.curp_cmd.specs.Node.{{{', '.join(nodes)}}}"] if nodes else []
    return "\n".join([f"use Rattle.std.specs.Prelude.{{{', '.join(prelude)}}}"] + sorted(lines))


def spec_of(script):
    """The spec of an example, by the file of its script."""
    header, *steps = script.read_text(encoding="utf-8").splitlines()
    output = script.with_suffix(".out").read_text(encoding="utf-8").splitlines()
    name = script.stem.replace("-", "_")
    fields = [
        f"header = {header_term(header)};",
        column("steps =", [step_term(line) for line in steps], ";"),
        column("text = lines (", [f'"{line}"' for line in output], ");"),
    ]
    body = f"abbrev pub {name} : Example\n{name} = record {{\n" + "".join(f"  {field}\n" for field in fields) + "}\n"
    head = f"{MADE} from examples/{script.name} and {script.stem}.out: edit these, and make it again."
    return f"{head}\n{uses(body)}\n\n-- {script.stem.replace('-', ' ')}\n{body}"


def module_of(script):
    """The file of an example's spec."""
    return "".join(word.capitalize() for word in script.stem.split("-")) + ".antt"


def specs_made():
    """Each spec that this program makes: its file, and its text."""
    scripts = [script for script in EXAMPLES.glob("*.script") if not script.with_suffix(".status").exists()]
    return {module_of(script): spec_of(script) for script in scripts}


def lib_of(files):
    """What specs/Lib.antt is where these are the specs beside it."""
    modules = sorted(file.removesuffix(".antt") for file in files)
    return f"{MADE}: all files of this folder.\n" + "".join(f"pub mod {module}\n" for module in modules)


def main():
    checks = sys.argv[1:] == ["--check"]
    if sys.argv[1:] and not checks:
        sys.exit(__doc__)
    there = {file.name: file.read_text(encoding="utf-8") for file in SPECS.glob("*.antt")}
    by_hand = [name for name, text in there.items() if not text.startswith(MADE) and name != "Lib.antt"]
    made = specs_made()
    made["Lib.antt"] = lib_of({*made, *by_hand})
    written = [name for name in made if there.get(name) != made[name]]
    dropped = [name for name in there if name not in made and name not in by_hand]
    if checks:
        wrong = written + dropped
        for name in wrong:
            print(f"{name} isn't what examples/to_specs.py makes")
        sys.exit(1 if wrong else 0)
    for name in written:
        (SPECS / name).write_text(made[name], encoding="utf-8")
    for name in dropped:
        (SPECS / name).unlink()


if __name__ == "__main__":
    main()
