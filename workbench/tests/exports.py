"""Readers of what `export` writes, which know the forms alone: whether a behaviour is accepted, by JSON and by HOA."""
import json
import re


def json_accepts(text, word):
    """By the states and nodes of the JSON."""
    found = json.loads(text)

    def step(state, letter):
        target = found["states"][state]["next"]
        while "node" in target:
            node = found["nodes"][target["node"]]
            target = node["high" if letter[node["variable"]] == "1" else "low"]
        return target["state"]

    state = found["start"]
    for letter in word:
        state = step(state, letter)
    return found["states"][state]["accept"]


def hoa_accepts(text, word):
    """Whether the infinite word is accepted that goes on without `alive` after these letters. What is read is a deterministic Büchi automaton."""
    head, body = text.split("--BODY--\n")
    state = re.search(r"^Start: (\d+)$", head, re.M).group(1)
    propositions = int(re.search(r"^AP: (\d+)", head, re.M).group(1))
    states = {}
    for part in re.split(r"^State: ", body.split("--END--")[0], flags=re.M)[1:]:
        first, *edges = part.splitlines()
        states[first.split()[0]] = "{0}" in first, [re.fullmatch(r"\[(.*)\] (\d+)", edge).groups() for edge in edges]

    def step(state, values):
        ends = [end for label, end in states[state][1] if all(values[int(it.strip("!"))] != it.startswith("!") for it in label.split("&"))]
        assert len(ends) <= 1, "the automaton is not deterministic"
        return ends[0] if ends else None

    for letter in word:
        state = step(state, [digit == "1" for digit in letter.strip("-")] + [True])
        if state is None:
            return False
    seen = []  # the letters from here on are one, so the states that return are those of a loop
    while state is not None and state not in seen:
        seen.append(state)
        state = step(state, [False] * propositions)
    return state is not None and any(states[it][0] for it in seen[seen.index(state):])
