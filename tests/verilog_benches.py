"""Modules on a bench: what clocks a module in another tool and prints its registers and cells, for tests and measurements beside other
tools of Verilog.

A bench is a module `bench` of IEEE 1364-2001 with delays and `$display`, which Icarus Verilog runs and Verilator builds. Names are
written escaped, so they may be any that a module of the subset has. Cells are loaded by `$readmemh`; those that are 0 aren't printed."""

import re
import subprocess
from dataclasses import dataclass, field


@dataclass
class Bench:
    """A module's name, its pins, registers and arrays in order of declaration, and what it is run with: the first cells of some
    arrays, the pins' values from some edges on, and how many edges are made."""

    module: str
    pins: dict
    registers: dict
    arrays: dict
    image: dict = field(default_factory=dict)
    schedule: dict = field(default_factory=dict)
    edges: int = 0


def escaped(name):
    return f"\\{name} "


def pin(name):
    """The register of the bench that drives a pin."""
    return escaped(f"pin.{name}")


def range_of(width):
    return f"[{width - 1}:0]"


def show_lines(bench):
    """A task that prints the state."""
    yield "  task show; begin"
    for name in bench.registers:
        yield f'    $display("{name} %h", dut.{escaped(name)});'
    for name, (_, depth) in bench.arrays.items():
        cell = f"dut.{escaped(name)}[i]"
        yield f'    for (i = 0; i < {depth}; i = i + 1) if ({cell} !== 0) $display("{name}[%0d] %h", i, {cell});'
    yield "  end endtask"


def start_lines(bench):
    yield "    clk = 0;"
    for name in bench.pins:
        yield f"    {pin(name)}= 0;"
    for number, name in enumerate(bench.arrays):
        yield f'    $readmemh("cells_{number}", dut.{escaped(name)});'


def traced_lines(bench):
    """The edges, with a state in front of the first and behind each."""
    yield '    #1 $display("edge 0"); show;'
    for edge in range(1, bench.edges + 1):
        for name, value in bench.schedule.get(edge, {}).items():
            yield f"    {pin(name)}= {bench.pins[name]}'h{value:x};"
        yield f'    #1 clk = 1; #1 clk = 0; $display("edge {edge}"); show;'


def looped_lines(bench):
    """The edges in a loop, with the last state alone; the pins stay 0."""
    yield f'    repeat ({bench.edges}) begin #1 clk = 1; #1 clk = 0; end'
    yield f'    $display("edge {bench.edges}"); show;'


def bench_text(bench, is_traced=True):
    out = ["module bench;", "  reg clk;", "  integer i;"]
    out += [f"  reg {range_of(width)} {pin(name)};" for name, width in bench.pins.items()]
    out += [f"  {escaped(bench.module)}dut (" + ", ".join(["clk", *map(pin, bench.pins)]) + ");"]
    out += [*show_lines(bench), "  initial begin", *start_lines(bench), *(traced_lines if is_traced else looped_lines)(bench)]
    return "\n".join([*out, "    $finish;", "  end", "endmodule"]) + "\n"


def write_bench(folder, bench, is_traced=True):
    """The file bench.v, and one with the first cells of each array."""
    (folder / "bench.v").write_text(bench_text(bench, is_traced))
    for number, (name, (_, depth)) in enumerate(bench.arrays.items()):
        cells = bench.image.get(name, [])
        (folder / f"cells_{number}").write_text("".join(f"{cells[i] if i < len(cells) else 0:x}\n" for i in range(depth)))


def declared(text):
    """The pins, registers and arrays of a module as `verilog` writes it."""
    head, _, _ = text.partition(";")
    name, width = r"\\(\S+)", r"\[ (\d+) : 0 \]"
    pins = {it: int(high) + 1 for high, it in re.findall(rf"input {width} {name}", head)}
    registers = {it: int(high) + 1 for high, it in re.findall(rf"(?m)^reg {width} {name} ;", text)}
    arrays = {it: (int(high) + 1, int(last) + 1) for high, it, last in re.findall(rf"(?m)^reg {width} {name} \[ 0 : (\d+) \] ;", text)}
    return pins, registers, arrays


def image_cells(text):
    """The first cells of an image's memories."""
    found, lines = {}, iter(text.splitlines()[1:])
    for line in lines:
        if line.startswith("memory "):
            _, name, _, _, count = line.split()
            found[name] = [int(next(lines), 16) for _ in range(int(count))]
    return found


def by_icarus(folder, modules):
    """The states by Icarus Verilog of the bench in a folder, or nothing where it writes a program that it can't read itself."""
    subprocess.run(["iverilog", "-g2001", "-o", "bench", *modules, "bench.v"], cwd=folder, check=True, timeout=600)
    done = subprocess.run(["vvp", "-n", "bench"], cwd=folder, capture_output=True, text=True, timeout=600)
    return None if done.returncode else states_of(done.stdout, True)


def states_of(text, whole):
    """The state after each edge: of a text with whole states, or of a trace, which tells what changed."""
    states = []
    for line in text.splitlines():
        name, _, value = line.partition(" ")
        if name == "edge":
            states.append({} if whole or not states else dict(states[-1]))
        elif states and name != "-":
            states[-1][name] = value.strip()
    return [{name: number(value) for name, value in state.items()} for state in states]


def number(value):
    """The number that hexadecimal digits write, or the digits where some are unknown."""
    try:
        return int(value, 16)
    except ValueError:
        return value


def shown(value):
    return f"{value:#x}" if isinstance(value, int) else value


def differences(ours, theirs):
    """Where two lists of states differ. What a state doesn't have is a cell that is 0."""
    if len(ours) != len(theirs):
        yield f"{len(ours)} states, {len(theirs)} expected"
    for edge, (one, other) in enumerate(zip(ours, theirs)):
        for name in sorted({*one, *other}):
            if one.get(name, 0) != other.get(name, 0):
                yield f"edge {edge}: {name} is {shown(one.get(name, 0))}, {shown(other.get(name, 0))} expected"
