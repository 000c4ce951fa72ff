"""Compares the slacks of `toppaths` with those of OpenSTA, a timing analyser that nobody of this project wrote (Debian package `opensta`).

    python3 -B reference/opensta.py crates/toppaths/out/toppaths [--designs N] [--required]
    python3 -B reference/opensta.py --show FILE

The first form makes N random designs (default 320), asks each for setup and for hold with a random k, and compares the slacks of the first k after credit, in
order. The last line is 'N passed, 0 failed'; exit status 1 if any failed. Without OpenSTA it says so and passes nothing; with --required that is a failure. The
second form prints the slacks that OpenSTA has for one text.

A text is translated to a netlist. R and each B and K is a buffer, whose delay is R's own range or the range of the arc that enters. A K also drives the clock
of a flip-flop that launches, and of one flip-flop that captures for each test. A D is a gate with one input for each arc that enters. All delays, setup and
hold times stand in an SDF file. Inputs have an input delay against a clock of their own, so OpenSTA finds no common pin for them, as document 01 wants.

What is left out, and why:
- Designs with no test: there is nothing to compare.
- Times that OpenSTA cannot hold. It keeps seconds in 32-bit floats, and every sum is rounded: it says -15904.002 where -15904 is right, and near 1,000,000 ps a
  step of the float is 0.06 ps. `within_floats` divides the times of a design with longer delays and shortens its period, so that what is rounded away stays far
  below half a picosecond.
- Which of several paths of equal slack comes first: OpenSTA's order among them is its own. Slacks alone are compared, every one of them.
- Repeats: in about one asking of ten OpenSTA 2.0.17 reports one and the same path two or three times. A report names every pin and gate input, so two equal
  reports are one path, and the second is dropped; more reports are asked for until k different ones are there or no more come.
"""

import random
import re
import shutil
import subprocess
import sys
import tempfile
from pathlib import Path
from typing import NamedTuple

import plans

DESIGNS = 320


# ------------------------------------------------------------- the design of a text

class Asked(NamedTuple):
    """An accepted text taken apart: a plan, the mode word and k."""
    plan: plans.Plan
    mode: str
    k: int


def asked_of(text):
    """Take an accepted text apart."""
    lines = [line.split("\t") for line in text.decode("ascii").splitlines()]
    pins, arcs, tests, period = map(int, lines[0][1:])
    plan = plans.Plan(period)
    for line in lines[1:1 + pins]:
        plan.pin(line[1], *map(int, line[2:]))
    fours = [tuple(map(int, line[1:])) for line in lines[1 + pins:1 + pins + arcs + tests]]
    plan.arcs, plan.tests = fours[:arcs], fours[arcs:]
    asks = lines[1 + pins + arcs + tests:]
    return Asked(plan, asks[0][1], int(asks[0][2])) if asks else Asked(plan, "setup", 1)


# ------------------------------------------------------------- cells

LIBRARY_HEAD = """\
library (cells) {
  delay_model : table_lookup; time_unit : "1ps"; capacitive_load_unit (1, ff);
  voltage_unit : "1V"; current_unit : "1mA"; pulling_resistance_unit : "1kohm"; leakage_power_unit : "1nW";
  nom_process : 1; nom_temperature : 25; nom_voltage : 1;
"""
for _edge in ("rise", "fall"):
    LIBRARY_HEAD += f"  input_threshold_pct_{_edge} : 50; output_threshold_pct_{_edge} : 50;\n"
    LIBRARY_HEAD += f"  slew_lower_threshold_pct_{_edge} : 20; slew_upper_threshold_pct_{_edge} : 80;\n"

ZERO = '(scalar) { values("0"); }'


def tables_of_zero(*names):
    """Tables of one value, 0: the SDF file brings the real one."""
    return " ".join(name + ZERO for name in names)


DELAYS = tables_of_zero("cell_rise", "cell_fall", "rise_transition", "fall_transition")
LIMITS = tables_of_zero("rise_constraint", "fall_constraint")

FLIP_FLOP = f"""\
  cell (FF) {{ area : 1; ff (IQ, IQN) {{ clocked_on : "CK"; next_state : "D"; }}
    pin (CK) {{ direction : input; clock : true; capacitance : 0; }}
    pin (D) {{ direction : input; capacitance : 0;
      timing () {{ related_pin : "CK"; timing_type : setup_rising; {LIMITS} }}
      timing () {{ related_pin : "CK"; timing_type : hold_rising; {LIMITS} }} }}
    pin (Q) {{ direction : output; function : "IQ";
      timing () {{ related_pin : "CK"; timing_type : rising_edge; {tables_of_zero("cell_rise", "rise_transition")} }} }} }}
"""


def gate(inputs):
    """A gate with so many inputs; its output rises when one of them does."""
    names = [f"A{place}" for place in range(inputs)]
    pins = "".join(f"    pin ({name}) {{ direction : input; capacitance : 0; }}\n" for name in names)
    arcs = "".join(f'      timing () {{ related_pin : "{name}"; timing_sense : positive_unate; {DELAYS} }}\n' for name in names)
    function = "+".join(names)
    return f'  cell (G{inputs}) {{ area : 1;\n{pins}    pin (Y) {{ direction : output; function : "{function}";\n{arcs}    }} }}\n'


def library(plan):
    """The cells of a plan: gates with as many inputs as are needed, and the flip-flop."""
    sizes = {1} | {len(arcs) for arcs in arcs_into(plan)}
    return LIBRARY_HEAD + "".join(gate(size) for size in sorted(sizes - {0})) + FLIP_FLOP + "}\n"


# ------------------------------------------------------------- netlist, delays, commands

def arcs_into(plan):
    """Per pin the arcs that enter, in their order."""
    into = [[] for _ in plan.pins]
    for arc in plan.arcs:
        into[arc[1]].append(arc)
    return into


def data_net(plan, pin):
    """The net that a data arc from this pin is on."""
    return {"I": f"i{pin}", "K": f"q{pin}"}.get(plan.pins[pin][0], f"n{pin}")


def gates_of(plan):
    """Per pin but the inputs: its number, and per input of its gate the net and the range of delays."""
    for pin, ((letter, early, late), arcs) in enumerate(zip(plan.pins, arcs_into(plan))):
        if letter == "R":
            yield pin, [("clk", early, late)]
        elif letter in "BK":
            yield pin, [(f"n{start}", early, late) for start, _, early, late in arcs]
        elif letter == "D":
            yield pin, [(data_net(plan, start), early, late) for start, _, early, late in arcs]


def inputs_of(plan):
    """The numbers of the I pins."""
    return [pin for pin, (letter, _, _) in enumerate(plan.pins) if letter == "I"]


def netlist(plan):
    """The plan in Verilog."""
    ports = ["clk"] + [f"i{pin}" for pin in inputs_of(plan)]
    lines = [f"module top ({', '.join(ports)});"] + [f"  input {port};" for port in ports]
    for pin, inputs in gates_of(plan):
        joined = "".join(f".A{place}({net}), " for place, (net, _, _) in enumerate(inputs))
        lines += [f"  wire n{pin};", f"  G{len(inputs)} p{pin} ({joined}.Y(n{pin}));"]
        if plan.pins[pin][0] == "K":
            lines += [f"  wire q{pin};", f"  FF launch{pin} (.CK(n{pin}), .Q(q{pin}));"]
    for number, (clock, data, _, _) in enumerate(plan.tests):
        lines.append(f"  FF test{number} (.CK(n{clock}), .D(n{data}));")
    return "\n".join(lines + ["endmodule", ""])


def delays(plan):
    """The ranges of delays, and the setup and hold times, in SDF."""
    lines = ['(DELAYFILE (SDFVERSION "3.0") (DIVIDER /) (TIMESCALE 1ps)']
    for pin, inputs in gates_of(plan):
        paths = "".join(f"(IOPATH A{place} Y ({early}::{late}) ({early}::{late}))" for place, (_, early, late) in enumerate(inputs))
        lines.append(f'(CELL (CELLTYPE "G{len(inputs)}") (INSTANCE p{pin}) (DELAY (ABSOLUTE {paths})))')
    for number, (_, _, setup, hold) in enumerate(plan.tests):
        checks = f"(SETUP D (posedge CK) ({setup}::{setup})) (HOLD D (posedge CK) ({hold}::{hold}))"
        lines.append(f'(CELL (CELLTYPE "FF") (INSTANCE test{number}) (TIMINGCHECK {checks}))')
    return "\n".join(lines + [")", ""])


def commands(asked, reports):
    """What OpenSTA is to do: so many reports of the mode's worst paths, every pin named."""
    plan = asked.plan
    lines = ["read_liberty cells.lib", "read_verilog top.v", "link_design top",
             f"create_clock -name clk -period {plan.period} [get_ports clk]",
             f"create_clock -name inputs -period {plan.period}",
             "set_propagated_clock [get_clocks clk]",
             "set_operating_conditions -analysis_type on_chip_variation"]
    for pin in inputs_of(plan):
        _, early, late = plan.pins[pin]
        lines += [f"set_input_delay -clock inputs -rise -min {early} [get_ports i{pin}]",
                  f"set_input_delay -clock inputs -rise -max {late} [get_ports i{pin}]"]
    side = "max" if asked.mode == "setup" else "min"
    lines += ["set sta_crpr_enabled 1", "set sta_crpr_mode same_pin",
              "read_sdf -analysis_type on_chip_variation top.sdf",
              f"report_checks -path_delay {side} -format full_clock_expanded -fields {{input_pin}} -digits 3"
              f" -group_count {reports} -endpoint_count {reports}", "exit", ""]
    return "\n".join(lines)


# ------------------------------------------------------------- asking OpenSTA

COMMAND = ["sta", "-no_splash", "-exit", "run.tcl"]


def installed():
    """Whether OpenSTA is there."""
    return shutil.which(COMMAND[0]) is not None


def first_reports(k):
    """How many reports to ask for at first: more than k, since there may be repeats."""
    return 4 * k + 16


def prepare(asked, folder, reports):
    """Write the input of OpenSTA into a folder."""
    files = {"cells.lib": library(asked.plan), "top.v": netlist(asked.plan), "top.sdf": delays(asked.plan),
             "run.tcl": commands(asked, reports)}
    for name, content in files.items():
        (Path(folder) / name).write_text(content, encoding="ascii")


def slacks_in(output):
    """The slacks of all reports, repeats included, and those of different reports, in the order reported."""
    reports = output.split("Startpoint:")[1:]
    different = list(dict.fromkeys(report.strip() for report in reports))
    found = [re.search(r"^\s*(-?[\d.]+)\s+slack \(", report, re.M) for report in different]
    if None in found or re.search(r"^(Error|Warning)", output, re.M):
        raise RuntimeError(f"OpenSTA said: {output[:2000]}")
    return len(reports), [round(float(slack.group(1))) for slack in found]


def slacks(asked):
    """The slacks of the first k paths as OpenSTA has them."""
    reports = first_reports(asked.k)
    with tempfile.TemporaryDirectory() as folder:
        while True:
            prepare(asked, folder, reports)
            run = subprocess.run(COMMAND, cwd=folder, capture_output=True, text=True, check=True)
            count, found = slacks_in(run.stdout + run.stderr)
            if len(found) >= asked.k or count < reports:
                return found[:asked.k]
            reports *= 4


# ------------------------------------------------------------- the comparison

def within_floats(plan):
    """The plan with times that OpenSTA's floats hold: ranges divided alike, so early stays at most late."""
    times = [time for row in plan.pins + plan.arcs + plan.tests for time in row[-2:]]
    part = 250 if max(times) > 10_000 else 1
    divided = lambda rows: [tuple(row[:-2]) + (row[-2] // part, row[-1] // part) for row in rows]
    return plans.Plan(min(plan.period, 10_000), divided(plan.pins), divided(plan.arcs), divided(plan.tests))


def random_asked(count):
    """So many random designs with a test, of all shapes of `plans`, 2 to 60 pins, each asked in both modes."""
    seed = 0
    while count:
        seed += 1
        chance = random.Random(-seed)
        plan = within_floats(plans.random_plan(seed, chance.randint(2, 18) if seed % 2 else chance.randint(20, 60)))
        if plan.tests:
            count -= 1
            for mode in ("setup", "hold"):
                yield seed, Asked(plan, mode, chance.randint(1, 16))


def printed_slacks(program, asked):
    """The slacks that the program prints."""
    run = subprocess.run([program], input=asked.plan.text(asked.mode, asked.k), capture_output=True, check=True)
    lines = [line.split(b"\t") for line in run.stdout.splitlines()]
    if not lines or lines[-1][0] != b"end":
        raise RuntimeError(f"{program} printed {run.stdout[:200]!r}")
    return [int(line[2]) for line in lines[:-1]]


def compare(program, count):
    """Compare on so many designs; gives how many askings passed and failed."""
    passed = failed = rows = 0
    for seed, asked in random_asked(count):
        got, wanted = printed_slacks(program, asked), slacks(asked)
        rows += len(wanted)
        if got == wanted:
            passed += 1
        else:
            failed += 1
            print(f"design {seed} {asked.mode} {asked.k}: {program} has {got}, OpenSTA {wanted}")
    print(f"{count} designs, setup and hold, {rows} slacks")
    return passed, failed


def option(name, default):
    """The number behind an option."""
    return int(sys.argv[sys.argv.index(name) + 1]) if name in sys.argv else default


def main():
    """Show one text, or compare."""
    if sys.argv[1] == "--show":
        print(*slacks(asked_of(Path(sys.argv[2]).read_bytes())), sep="\n")
        return
    if installed():
        passed, failed = compare(sys.argv[1], option("--designs", DESIGNS))
    else:
        print("opensta is not installed: nothing is compared")
        passed, failed = 0, int("--required" in sys.argv)
    print(f"{passed} passed, {failed} failed")
    sys.exit(1 if failed else 0)


if __name__ == "__main__":
    main()
