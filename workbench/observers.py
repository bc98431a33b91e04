"""The program's observers with one thing changed, each still a text that the program replays."""


def asks_state(tables: str, state: int) -> str:
    """Tables that answer whether the automaton is in a state, and not whether it accepts."""
    head, array, rest = tables.partition("accept[states] = {\n")
    entries, end, tail = rest.partition("};\n")
    return head + array + "".join(f"  {int(number == state)},\n" for number in range(entries.count("\n"))) + end + tail


def restarted(observer: str) -> str:
    """An observer in C with one more input, the first: where it is 1, it begins anew before the instant."""
    observer = observer.replace("int observer_step(void)", "int observer_step(int restart)", 1)
    observer = observer.replace("int observer_step(int v_", "int observer_step(int restart, int v_", 1)
    return observer.replace("  nx = 0;\n", "  if (restart == 1) st = 0;\n  nx = 0;\n", 1)
