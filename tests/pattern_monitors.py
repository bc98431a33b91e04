"""Each pattern's sentence as a plain check of a behaviour, written from the sentence alone. tests/patterns.py compares them with the formulas.

A behaviour is given as a list of truths for each variable. `T` are its instants. A check of a scope goes through its instants one by one.
"""


def scopes(q, r):
    """From each q at which r is false to the next r: where it begins, where it ends (without r's instant), and whether r comes."""
    for i, begins in enumerate(q):
        if begins and not r[i]:
            j = next((j for j in range(i, len(r)) if r[j]), None)
            yield (i, len(r), False) if j is None else (i, j, True)


def closed(q, r):
    return [(i, j) for i, j, comes in scopes(q, r) if comes]


def opened(q, r):
    return [(i, j) for i, j, _ in scopes(q, r)]


def first(p):
    return next((i for i, value in enumerate(p) if value), None)


def stretches(p):
    """The stretches of p: the first instant of each, and the instant after its last."""
    found, start = [], None
    for i, value in enumerate(list(p) + [False]):
        if value and start is None:
            start = i
        if not value and start is not None:
            found.append((start, i))
            start = None
    return found


def longest(p):
    return max([end - start for start, end in stretches(p)], default=0)


def no(p):
    return [not value for value in p]


def both(p, q):
    return [a and b for a, b in zip(p, q)]


def rises(p):
    return [value and not (i and p[i - 1]) for i, value in enumerate(p)]


def within(p, q, n, begin=0):
    """Each p with n instants after it has a q at one of the instants from `begin` to n after it."""
    return all(any(q[i + begin:i + n + 1]) for i, value in enumerate(p) if value and i + n < len(p))


def windows(p, n):
    return [p[i:i + n] for i in range(len(p) - n + 1)]


def places(p):
    return [i for i, value in enumerate(p) if value]


def steps(p):
    """From each instant of p to the next one."""
    found = places(p)
    return [j - i for i, j in zip(found, found[1:])]


def held(p, n):
    """At which instants p was true at n instants in a row of which this is the last."""
    return [i + 1 >= n and all(p[i + 1 - n:i + 1]) for i in range(len(p))]


def latch(rule):
    """The values of a rule that is asked at each instant with the value one instant earlier, at first false."""
    value, found = False, []
    for now in rule:
        value = now(value)
        found.append(value)
    return found


def whole(p):
    """The lengths of the stretches that have an instant before them and one after."""
    return [end - start for start, end in stretches(p) if start > 0 and end < len(p)]


def chain_after(q, r, i):
    """Whether a q comes at instant i or later, and an r later than that q."""
    return any(q[a] and any(r[a + 1:]) for a in range(i, len(q)))


def chain_before(q, r, k):
    """Whether a q is there, and a later r, at instant k at the latest."""
    return any(q[a] and any(r[a + 1:k + 1]) for a in range(k + 1))


def alternate(p, q):
    turn = "p"
    for a, b in zip(p, q):
        if a and b or a and turn != "p" or b and turn != "q":
            return False
        turn = "q" if a else "p" if b else turn
    return True


def stays(p, q, n):
    for i in range(1, len(p)):
        if p[i - 1] and not p[i]:
            j = i
            while j < len(p) and not p[j] and q[j]:
                j += 1
            if j - i > n:
                return False
    return True


def apart(p, q, n):
    """Instants of p and of q, whichever comes first, have n or more between them at which neither is."""
    if any(both(p, q)):
        return False
    marks = [(i, a) for i, (a, b) in enumerate(zip(p, q)) if a or b]
    return all(one == two or j - i - 1 >= n for (i, one), (j, two) in zip(marks, marks[1:]))


def scoped(q, r, p, s, n):
    inside = [False] * len(q)
    for i, j in opened(q, r):
        inside[i:j] = [True] * (j - i)
    return all(any(s[i:i + n + 1]) or any(r[i:i + n + 1]) for i, value in enumerate(p) if value and inside[i] and i + n < len(p))


def released(p, q, n):
    for i in range(len(p)):
        if p[i] and q[i]:
            for j in range(i + 1, min(i + n, len(p) - 1) + 1):
                if p[j]:
                    break
                if not q[j]:
                    return False
    return True


def recovered(f, ok, n):
    since = None
    for i, fault in enumerate(f):
        since = i if fault else since
        if since is not None and i - since >= n and not ok[i]:
            return False
    return True


def delayed(p, q, n):
    return any(step <= n for step in steps(p)) or q == [i >= n and p[i - n] for i in range(len(p))]


def debounced(p, q, n):
    on, off = held(p, n), held(no(p), n)
    return q == latch((lambda value, a=a, b=b: True if a else False if b else value) for a, b in zip(on, off))


def beat_lost(beat, ack, alarm, n):
    return alarm == latch((lambda value, a=a, b=b: True if a else False if b else value) for a, b in zip(held(no(beat), n), ack))


def set_wins(hi, lo, q):
    return q == latch((lambda value, a=a, b=b: True if a else False if b else value) for a, b in zip(hi, lo))


def reset_wins(s, r, q):
    return q == latch((lambda value, a=a, b=b: False if b else True if a else value) for a, b in zip(s, r))


MONITORS = {
    "absence": lambda p: not any(p),
    "absence_before": lambda p, r: first(r) is None or not any(p[:first(r)]),
    "absence_after": lambda p, q: first(q) is None or not any(p[first(q):]),
    "absence_between": lambda p, q, r: not any(any(p[i:j]) for i, j in closed(q, r)),
    "absence_after_until": lambda p, q, r: not any(any(p[i:j]) for i, j in opened(q, r)),
    "universality": lambda p: all(p),
    "universality_after_until": lambda p, q, r: all(all(p[i:j]) for i, j in opened(q, r)),
    "existence": lambda p: any(p),
    "existence_before": lambda p, r: first(r) is None or any(p[:first(r)]),
    "existence_after": lambda p, q: first(q) is None or any(p[first(q):]),
    "existence_between": lambda p, q, r: all(any(p[i:j]) for i, j in closed(q, r)),
    "existence_after_until": lambda p, q, r: all(any(p[i:j]) for i, j in opened(q, r)),
    "bounded_existence": lambda p, k: sum(p) <= k,
    "bounded_existence_edges": lambda p, k: len(stretches(p)) <= k,
    "bounded_between": lambda p, q, r, k: all(sum(p[i:j]) <= k for i, j in closed(q, r)),
    "precedence": lambda p, q: all(any(q[:i + 1]) for i in places(p)),
    "precedence_strict": lambda p, q: all(any(q[:i]) for i in places(p)),
    "precedence_between": lambda p, s, q, r: all(any(s[i:k + 1]) for i, j in closed(q, r) for k in range(i, j) if p[k]),
    "precedence_after_until": lambda p, s, q, r: all(any(s[i:k + 1]) for i, j in opened(q, r) for k in range(i, j) if p[k]),
    "response": lambda p, q: all(any(q[i:]) for i in places(p)),
    "response_between": lambda p, s, q, r: all(any(s[k:j]) for i, j in closed(q, r) for k in range(i, j) if p[k]),
    "response_after_until": lambda p, s, q, r: all(any(s[k:j]) for i, j in opened(q, r) for k in range(i, j) if p[k]),
    "precedence_chain": lambda p, q, r: all(chain_before(q, r, k) for k in places(p)),
    "response_chain": lambda p, q, r: all(chain_after(q, r, i) for i in places(p)),
    "alternation": alternate,
    "held_until": lambda q, r: all(q[i + 1] or r[i + 1] for i in range(len(q) - 1) if q[i] and not r[i]),
    "minimum_duration": lambda p, n: all(length >= n for length in whole(p)),
    "minimum_duration_start": lambda p, n: all(end - start >= n for start, end in stretches(p) if end < len(p)),
    "minimum_duration_ended": lambda p, n: all(end - start >= n for start, end in stretches(p)),
    "maximum_duration": lambda p, n: longest(p) <= n,
    "maximum_duration_after": lambda p, q, n: first(q) is None or longest(p[first(q):]) <= n,
    "pulse_width": lambda p, n: all(length == n for length in whole(p)) and longest(p) <= n,
    "bounded_recurrence": lambda p, n: all(any(window) for window in windows(p, n)),
    "startup": lambda p, n: len(p) < n or any(p[:n]),
    "bounded_response": lambda p, q, n: within(p, q, n),
    "bounded_response_ended": lambda p, q, n: all(any(q[i:i + n + 1]) for i in places(p)),
    "bounded_response_next": lambda p, q, n: within(p, q, n, begin=1),
    "bounded_invariance": lambda p, q, n: all(all(q[i:i + n + 1]) for i in places(p)),
    "minimum_separation": lambda p, n: all(step >= n for step in steps(p)),
    "edge_separation": lambda p, n: all(step >= n for step in steps(rises(p))),
    "edge_response": lambda p, q, n: within(rises(p), q, n),
    "bounded_response_while": lambda m, p, q, n: all(any(q[i:i + n + 1]) or not all(m[i:i + n + 1]) for i in places(p) if i + n < len(p)),
    "response_in_scope": scoped,
    "edge_bounded_stay": stays,
    "period": lambda p, n, m: all(n <= step <= m for step in steps(p)) and (not any(p) or len(p) - 1 - places(p)[-1] < m),
    "at_most_k_in_n": lambda p, n, k: all(sum(window) <= k for window in windows(p, min(n, len(p)))),
    "at_least_k_in_n": lambda p, n, k: all(sum(window) >= k for window in windows(p, n)),
    "edge_limit": lambda p, n, k: all(sum(window) <= k for window in windows(rises(p), min(n, len(p)))),
    "on_delay": lambda p, u, n: u == held(p, n),
    "off_delay": lambda p, q, n: q == [any(p[max(0, i - n):i + 1]) for i in range(len(p))],
    "debounce": debounced,
    "no_chattering": lambda p, n: all(length >= n for length in whole(p) + whole(no(p))),
    "hysteresis": set_wins,
    "reset_dominates": reset_wins,
    "heartbeat_loss": beat_lost,
    "agreement": lambda a, b, n: longest([x != y for x, y in zip(a, b)]) <= n,
    "mode_change": lambda cmd, mode, n: all(any(m) for c, m in zip(windows(cmd, n + 1), windows(mode, n + 1)) if all(c)) and
    all(not all(m) for c, m in zip(windows(cmd, n + 1), windows(mode, n + 1)) if not any(c)),
    "interlock": lambda p, q, n: not any(rise and not a for rise, a in zip(rises(q), p)) and longest(both(q, no(p))) <= n,
    "mutual_exclusion": lambda p, q: not any(both(p, q)),
    "dead_time": apart,
    "sequence_deadlines": lambda a, b, c, n, m: within(a, b, n) and within(b, c, m),
    "hold_after_release": released,
    "recovery": recovered,
    "rearm": lambda p, r, n: longest(p[max(places(r), default=0):]) <= n,
    "delay_exact": delayed,
}
