#!/usr/bin/env python3
"""Writes formula files of the kinds that users of MONA write, each by a parameter or two. For measuring beside MONA, by hand:

    bench/families.py FAMILY N ..     one file, to the output
    bench/families.py FOLDER          the cases that bench/beside_mona.py measures, each into a file of the folder

    arbiter N K      an arbiter of N clients; a client that asks at K instants in a row is granted at one of these
    layers N         N layers of macros that swap and negate their arguments, around windows of up to 15 instants
    past N           the variable was true N instants before the end
    mixture N        a Boolean mixture of N formulas over 10 variables, drawn by a fixed seed
    handshake N      a four-phase handshake whose phases take N instants at most is over within 3 N
    response N       each request is answered within N instants
    chain N          at most N instants
    count N          the variable is true at N instants or more
    quantified N     the same of a quantified variable that is the negated one
    separation N     two instants at which the variable is true are N apart
"""
import os
import random
import sys


def names(word, count):
    return [f"{word}{number}" for number in range(count)]


def joined(operator, parts):
    return f" {operator} ".join(parts)


def arbiter(clients, within):
    ask, grant = names("ask", clients), names("grant", clients)
    pairs = [f"!({one} && {other})" for place, one in enumerate(grant) for other in grant[place + 1:]]
    return (f"var {', '.join(ask + grant)};\n"
            f"prop one_at_most as {joined('&&', pairs)};\n"
            f"prop asked as {joined('&&', [f'({g} => {a})' for a, g in zip(ask, grant)])};\n"
            f"define served(ask, grant) as []([[ask]] && slen = {within - 1} => <><grant>);\n"
            f"infer [[one_at_most && asked]] && {joined('&&', [f'served({a}, {g})' for a, g in zip(ask, grant)])};\n")


def layers(count):
    lines = ["var p, q;", "define layer0(a, b) as []([[a]] => slen < 3);"]
    for layer in range(1, count):
        lines.append(f"define layer{layer}(a, b) as layer{layer - 1}(b, !a) && <>([[a]] && slen = {1 + layer * 7 % 15});")
    lines.append(f"infer layer{count - 1}(p, q);\n")
    return "\n".join(lines)


def past(length):
    return f"var p;\ninfer true ^ <p> ^ (slen = {length});\n"


def mixture(count):
    drawn = random.Random(10)
    variables = names("p", 10)
    forms = ["<><{a} && {b}>", "[](<{a}> ^ {{{{true}}}} ^ <{b}> => <>[[{c}]])", "<{a}> ^ true ^ <{b}>", "[[{a} => {b} || {c}]]", "[]([[{a}]] => slen < 3)"]

    def part(many):
        if many == 1:
            a, b, c = drawn.sample(variables, 3)
            return "(" + drawn.choice(forms).format(a=a, b=b, c=c) + ")"
        left = drawn.randint(1, many - 1)
        return f"({part(left)} {drawn.choice(['&&', '||', '=>', '<=>'])} {part(many - left)})"

    return f"var {', '.join(variables)};\ninfer {part(count)};\n"


def handshake(within):
    return ("var request, answer;\n"
            "prop idle as !request && !answer;\nprop asks as request && !answer;\nprop holds as request && answer;\nprop ends as !request && answer;\n"
            "define step(now, next) as [](<now> ^ {{now}} ^ <!now> => true ^ <next>);\n"
            f"define short(phase) as []([[phase]] => slen < {within});\n"
            "infer step(idle, asks) && step(asks, holds) && step(holds, ends) && step(ends, idle) && short(asks) && short(holds) && short(ends)\n"
            f"    => []([[!idle]] => slen < {3 * within});\n")


def response(within):
    return f"var request, answer;\ninfer [](<request> ^ (slen = {within}) => <><answer>);\n"


def chain(length):
    return f"infer slen <= {length};\n"


def count(least):
    return f"var p;\ninfer scount p >= {least};\n"


def quantified(least):
    return f"var p;\ninfer ex q. [[q <=> !p]] && scount q >= {least};\n"


def separation(apart):
    return f"var p;\ninfer []({{{{p}}}} ^ (pt || [!p]) ^ <p> => slen > {apart});\n"


FAMILIES = {one.__name__: one for one in (arbiter, layers, past, mixture, handshake, response, chain, count, quantified, separation)}

# the sizes at which each takes MONA some 0.05 to 2 s
LARGE = ["arbiter 8 3", "arbiter 6 5", "arbiter 5 6", "layers 120", "past 12", "mixture 12", "handshake 40", "response 13",
         "chain 700", "count 8", "quantified 8", "separation 300"]
# and smaller or larger ones of the same families
OTHERS = ["arbiter 2 4", "arbiter 3 4", "arbiter 4 4", "layers 30", "layers 60", "past 6", "past 9", "mixture 6", "mixture 9", "handshake 14", "handshake 25",
          "response 8", "response 11", "chain 200", "chain 1500", "count 4", "count 6", "quantified 4", "quantified 6", "separation 100", "separation 600"]
CASES = LARGE + OTHERS

if __name__ == "__main__":
    family, *sizes = sys.argv[1:] or sys.exit(__doc__)
    if sizes:
        print(FAMILIES[family](*map(int, sizes)), end="")
    else:
        os.makedirs(family, exist_ok=True)
        for case in CASES:
            name, *sizes = case.split()
            with open(os.path.join(family, case), "w") as file:
                file.write(FAMILIES[name](*map(int, sizes)))
