"""Approximations of NetworkX beside the solver with budgets of no node and of one.

    python3 measure/time/approximate.py STEINER FILE ..

Writes a line of a table for each file in which nobody pays: the least cost (of `solve` with its default budget), and then for NetworkX's
`steiner_tree` by the methods `mehlhorn` (Mehlhorn 1988) and `kou` (Kou, Markowsky and Berman 1981), for `solve --nodes 0` and for
`solve --nodes 1`: how many percent the tree costs above the least, and the seconds of a processor; of `solve` also how many percent its
bound is below the least. Needs the package networkx. Reading the file counts for `solve`, and not for NetworkX.
"""
import re
import resource
import subprocess
import sys
import time

import networkx
from networkx.algorithms.approximation import steiner_tree


def read(name):
    """The graph that an STP file states, its terminals, and whether somebody pays."""
    graph, terminals, pays = networkx.Graph(), set(), False
    for line in open(name, encoding='utf-8'):
        words = line.split()
        if words[:1] == ['E']:
            u, v, cost = (int(word) for word in words[1:4])
            if u != v and cost < graph.get_edge_data(u, v, {'weight': cost + 1})['weight']:
                graph.add_edge(u, v, weight=cost)
        elif words[:1] == ['T']:
            terminals.add(int(words[1]))
        elif words[:1] == ['TP']:
            pays = pays or words[2] != '0'
    return graph, terminals, pays


def approximated(graph, terminals, method):
    """The cost of an approximate tree, and the seconds of a processor."""
    begin = time.process_time()
    tree = steiner_tree(graph, sorted(terminals), method=method)
    return tree.size(weight='weight'), time.process_time() - begin


def solved(steiner, name, words):
    """Primal and dual of a run, and the seconds of a processor."""
    before = resource.getrusage(resource.RUSAGE_CHILDREN)
    text = subprocess.run([steiner, 'solve', name] + words, stdout=subprocess.PIPE, check=False).stdout.decode()
    after = resource.getrusage(resource.RUSAGE_CHILDREN)
    seconds = after.ru_utime + after.ru_stime - before.ru_utime - before.ru_stime
    primal, dual = (float(re.search(rf'^{word} (\S+)$', text, re.MULTILINE).group(1)) for word in ('Primal', 'Dual'))
    return primal, dual, seconds


def above(cost, least):
    return f'{100 * (cost - least) / least:.1f} %'


def row(steiner, name):
    """The line of a file; none where somebody pays."""
    graph, terminals, pays = read(name)
    if pays:
        return None
    least, _, _ = solved(steiner, name, [])
    cells = [name.rsplit('/', 1)[-1].removesuffix('.stp'), f'{least:g}']
    for method in ('mehlhorn', 'kou'):
        cost, seconds = approximated(graph, terminals, method)
        cells += [above(cost, least), f'{seconds:.2f} s']
    for nodes in ('0', '1'):
        primal, dual, seconds = solved(steiner, name, ['--nodes', nodes])
        cells += [above(primal, least), above(2 * least - dual, least), f'{seconds:.2f} s']
    return '| ' + ' | '.join(cells) + ' |'


def main():
    steiner, *names = sys.argv[1:]
    for name in names:
        line = row(steiner, name)
        if line:
            print(line, flush=True)


if __name__ == '__main__':
    main()
