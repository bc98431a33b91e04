"""Which requirements `set` asks about as a group: those that share names, as far as there is room for these."""
from collections import defaultdict
from typing import Collection, Dict, FrozenSet, List, Mapping, Sequence, Set, Tuple

import limits
from joined import Requirement


def grouped(requirements: Sequence[Requirement], order: Mapping[Requirement, int], bad: Collection[FrozenSet[Requirement]]) -> List[Tuple[List[Requirement], str]]:
    """Each requirement in one group, which is joined by the one that shares most names with it, as far as its names and what is known
    of pairs allow; and why others that share names did not join it, or nothing."""
    by_name: Dict[str, Dict[Requirement, None]] = defaultdict(dict)
    for it in requirements:
        for name in it.variables:
            by_name[name][it] = None
    groups, todo = [], dict.fromkeys(requirements)
    while todo:
        group = [next(iter(todo))]
        shared: Dict[Requirement, int] = {}
        names: Set[str] = set()
        while group[-1] in todo:
            del todo[group[-1]]
            for name in set(group[-1].variables) - names:
                names.add(name)
                for it in by_name[name]:
                    shared[it] = shared.get(it, 0) + 1
            allowed = [it for it in shared if it in todo and not any(frozenset((it, other)) in bad for other in group)]
            near = sorted(allowed, key=lambda it: (-shared[it], order[it]))
            group += [it for it in near if len(names | set(it.variables)) <= limits.JOINT_NAMES][:1]
        groups.append((group, f"{len(near)} more share names: more than {limits.JOINT_NAMES} names together" if near else ""))
    return groups
