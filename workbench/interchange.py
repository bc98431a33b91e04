"""The minimal automaton as JSON, of the form that docs/automaton.schema.json gives."""
import json
from typing import Dict, List, Optional, Union

from automaton import Automaton, Choice, Diagram
from conditions import standing
from tables import nodes_of

SCHEMA = "dcvalid-automaton-1"


def as_json(automaton: Automaton, title: str) -> str:
    """A line for each state and each node; a node stands after those that it leads to."""
    nodes = nodes_of(automaton)
    numbers = {id(node): number for number, node in enumerate(nodes)}

    def target(diagram: Diagram) -> Dict[str, int]:
        return {"node": numbers[id(diagram)]} if isinstance(diagram, Choice) else {"state": diagram}

    states = [{"accept": automaton.accept[state], "standing": standing(automaton, state), "next": target(automaton.rows[state]),
               "access": access(automaton, state)} for state in range(automaton.states)]
    choices = [{"variable": node.variable, "high": target(node.high), "low": target(node.low)} for node in nodes]
    head = json.dumps({"schema": SCHEMA, "name": title, "variables": automaton.variables, "start": 0})[:-1]
    return f'{head},\n"states": {array(states)},\n"nodes": {array(choices)}}}\n'


def access(automaton: Automaton, state: int) -> Optional[Dict[str, Union[Optional[int], str]]]:
    """The last letter of the least behaviour that leads to a state, and the state before it, which is null at the start; null where none leads there."""
    before, letter = automaton.access[state]
    return {"from": before, "letter": letter} if letter else None


def array(items: List[Dict[str, object]]) -> str:
    return "[" + ",".join("\n " + json.dumps(item) for item in items) + "\n]"
