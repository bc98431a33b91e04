"""Monitors and controllers in Verilog: the rows of an automaton as choices in a `case`, or as constant tables that are looked up."""
import re
from dataclasses import dataclass
from typing import Dict, List, Sequence

from automaton import Choice, Diagram
from tables import nodes_below

MOST_CASES = 50  # states; tables have a quarter of the cells at 61 states, and a seventeenth at 1,001: see docs/EXPORT.md
FORMS = ("cases", "tables")

MODULE = """\
// {title}: {states} states.
// `./ask export` of dcvalid wrote it, which is not proved; it is not to be edited.
// {use}
// verilator lint_off UNUSED
module {name} (
{ports}
);
  reg [{top}:0] state;
{body}
  initial state = {start};
  always @(posedge clk) state <= rst ? {start} : {following};
endmodule
"""

MONITOR_USE = "At each rising edge of clk an instant ends; before the edge ok is 1 if the behaviour so far satisfies the requirement."
CONTROLLER_USE = "At each rising edge of clk an instant ends; before the edge the outputs are the controller's answer to the inputs."


@dataclass
class Machine:
    """What becomes a module: the next state for each state and letter, and the value that is returned: an acceptance of the next state, or outputs."""

    inputs: Sequence[str]
    states: int
    rows: Dict[int, Diagram]  # a state that has none goes to state 0
    accept: Sequence[bool] = ()  # of a monitor
    outputs: Sequence[str] = ()  # of a controller
    answers: Sequence[Diagram] = ()  # of a controller, a row for each state; the first output is the highest bit


def bits(count: int) -> int:
    """The bits of a number below this one."""
    return max(1, (count - 1).bit_length())


def port(name: str) -> str:
    return "v_" + name


def number(width: int, value: int) -> str:
    return f"{width}'d{value}"


def module(machine: Machine, name: str, title: str, form: str) -> str:
    """The text of a module: `clk`, `rst`, and an input `v_NAME` for each variable."""
    width = bits(machine.states)
    write = {"cases": cases, "tables": lookups}[form]
    body = write("next", machine.rows, width, machine)
    ports = ["input wire clk", "input wire rst", *(f"input wire {port(it)}" for it in machine.inputs)]
    if machine.outputs:
        body += write("answer", dict(enumerate(machine.answers)), len(machine.outputs), machine)
        body.append(f"  assign {{{', '.join(map(port, machine.outputs))}}} = answer;")
        ports += [f"output wire {port(it)}" for it in machine.outputs]
    else:
        body += accepted(machine.accept, width) if form == "cases" else array("accepting", [int(it) for it in machine.accept], 1)
        body.append("  assign ok = accepting[next];" if form == "tables" else "  assign ok = accepting;")
        ports.append("output wire ok")
    return MODULE.format(title=title, states=machine.states, use=CONTROLLER_USE if machine.outputs else MONITOR_USE, name=name, top=width - 1,
                         ports=",\n".join("  " + it for it in ports), body="\n".join(body), start=number(width, 0), following="next")


def module_name(path: str, ending: str) -> str:
    """A module's name from that of a file."""
    stem = re.sub(r"\W", "_", re.sub(r".*/|\.dc$", "", path), flags=re.A).strip("_") or "dcvalid"
    return f"{stem if re.match('[A-Za-z]', stem) else 'dc_' + stem}_{ending}"


# ---- as choices


def cases(name: str, rows: Dict[int, Diagram], width: int, machine: Machine) -> List[str]:
    """A wire for each node, and a `case` over the states."""
    nodes = nodes_below(rows.values())
    wires = {id(node): f"{name}_{place}" for place, node in enumerate(nodes)}

    def value(diagram: Diagram) -> str:
        return wires[id(diagram)] if isinstance(diagram, Choice) else number(width, diagram)

    lines = [f"  wire [{width - 1}:0] {wires[id(node)]} = {port(machine.inputs[node.variable])} ? {value(node.high)} : {value(node.low)};" for node in nodes]
    lines += [f"  reg [{width - 1}:0] {name};", "  always @*", "    case (state)"]
    lines += [f"      {number(bits(machine.states), state)}: {name} = {value(row)};" for state, row in rows.items()]
    return lines + [f"      default: {name} = {number(width, 0)};", "    endcase"]


def accepted(accept: Sequence[bool], width: int) -> List[str]:
    """Whether the next state is an accepting one: the fewer of both kinds are listed."""
    listed = sum(accept) * 2 <= len(accept)
    states = [number(width, state) for state, accepts in enumerate(accept) if accepts == listed]
    some = [f"      {', '.join(states)}: accepting = 1'b{int(listed)};"] if states else []
    return ["  reg accepting;", "  always @*", "    case (next)", *some, f"      default: accepting = 1'b{int(not listed)};", "    endcase"]


# ---- as tables


def lookups(name: str, rows: Dict[int, Diagram], width: int, machine: Machine) -> List[str]:
    """A table of the rows, and for each variable two tables of its nodes. A place below the first node of any variable is a value; the places of the
    last variable's nodes come next. So at each variable the places from its first one on are its nodes."""
    nodes, values = nodes_below(rows.values()), 1 << width
    places = {id(node): values + at for at, node in enumerate(nodes)}
    wide = bits(values + len(nodes))

    def place(diagram: Diagram) -> int:
        return places[id(diagram)] if isinstance(diagram, Choice) else diagram

    lines = array(f"{name}_row", [place(rows.get(state, 0)) for state in range(machine.states)], wide)
    lines.append(f"  wire [{wide - 1}:0] {name}_at0 = {name}_row[state];")
    step = 0
    for variable, input_name in enumerate(machine.inputs):
        own = [node for node in nodes if node.variable == variable]
        if own:
            lines += array(f"{name}_high{variable}", [place(node.high) for node in own], wide)
            lines += array(f"{name}_low{variable}", [place(node.low) for node in own], wide)
            first, here, short = number(wide, places[id(own[0])]), f"{name}_at{step}", bits(len(own))
            lines += [f"  wire [{wide - 1}:0] {name}_offset{variable} = {here} - {first};",
                      f"  wire [{wide - 1}:0] {name}_at{step + 1} = {here} < {first} ? {here} : {port(input_name)}"
                      f" ? {name}_high{variable}[{name}_offset{variable}[{short - 1}:0]] : {name}_low{variable}[{name}_offset{variable}[{short - 1}:0]];"]
            step += 1
    return lines + [f"  wire [{width - 1}:0] {name} = {name}_at{step}[{width - 1}:0];"]


def array(name: str, numbers: Sequence[int], width: int) -> List[str]:
    """A constant memory, filled up to a power of two so that each place of it has a value."""
    size = 1 << bits(len(numbers))
    filled = [*numbers, *[0] * (size - len(numbers))]
    lines = [f"  reg [{width - 1}:0] {name} [0:{size - 1}];", "  initial begin"]
    return lines + [f"    {name}[{place}] = {number(width, value)};" for place, value in enumerate(filled)] + ["  end"]
