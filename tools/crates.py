#!/usr/bin/env python3
"""crates.py FOLDER NAME..: makes the folder a repository of these crates and those below them.

The tools share what is here: the groups and crates of crates.txt, what stands on what, and copies of their sources."""
import os, re, shutil, sys

TOP = os.path.dirname(os.path.dirname(os.path.abspath(__file__)))
RT = os.path.join(TOP, 'tools', 'rt')  # the toolchain's command, which reads each crate once a run


def all_crates():
    """Each crate of crates.txt, in its order, with what it stands on."""
    below = {}
    with open(os.path.join(TOP, 'crates.txt'), encoding='utf-8') as lines:
        for line in lines:
            head, colon, deps = line.split('#')[0].partition(':')
            if colon:
                below[head.split()[0]] = deps.split()
    return below


def all_groups():
    """Each group of crates.txt, in its order, with its crates: a group begins by a line `# name: what it has`."""
    groups = {}
    with open(os.path.join(TOP, 'crates.txt'), encoding='utf-8') as lines:
        for line in lines:
            if head := re.match(r'# ([a-z]+): ', line):
                crates = groups.setdefault(head[1], [])
            elif crate := re.match(r'(\w+)[^:#]*:', line):
                crates.append(crate[1])
    return groups


def crates_below(names):
    """The crates that these stand on, and themselves, each with what it stands on, lowest first."""
    below = all_crates()
    wanted, left = set(), list(names)
    while left:
        name = left.pop()
        if name in below and name not in wanted:
            wanted.add(name)
            left += below[name]
    return {name: [dep for dep in deps if dep in wanted] for name, deps in below.items() if name in wanted}


def nearest(below, name):
    """Of what a crate stands on all that nothing else of it stands on, in the order of crates.txt, ported crates last."""
    mine = [dep for dep in below if dep in below[name]] + [dep for dep in below[name] if dep not in below]
    further = {far for dep in mine if dep in below for far in crates_below([dep]) if far != dep}
    further |= {far for dep in mine for user in crates_below([dep]) for far in below[user] if far not in below}
    return [dep for dep in mine if dep not in further]


def groups_below():
    """Of each group the others that its crates stand on, and of these the nearest: those that no other of them stands on."""
    below, groups = all_crates(), all_groups()
    group_of = {crate: group for group, crates in groups.items() for crate in crates}
    on = {group: {group_of[dep] for crate in crates for dep in below[crate] if dep in group_of} - {group} for group, crates in groups.items()}
    return on, {group: [near for near in groups if near in on[group] and not any(near in on[other] for other in on[group])] for group in groups}


def longest_chain(below, top):
    """Of the ways from a crate down to one that stands on no other of these, one with the most crates, lowest first."""
    ways = {}
    for name in below:
        ways[name] = max((ways[dep] for dep in below[name] if dep in ways), key=len, default=[]) + [name]
    return ways[top]


def copy_sources(folder, crates):
    """Makes the folder a repository of these crates alone."""
    os.makedirs(folder, exist_ok=True)
    shutil.copy2(os.path.join(TOP, 'HANDLES'), folder)
    with open(os.path.join(TOP, 'crates.txt'), encoding='utf-8') as lines, open(os.path.join(folder, 'crates.txt'), 'w', encoding='utf-8') as own:
        own.writelines(line for line in lines if line.partition(':')[0].strip() in crates)
    for name in crates:
        for part in ('src', 'specs', 'proofs'):
            here = os.path.join(TOP, 'crates', name, part)
            if os.path.isdir(here):
                shutil.copytree(here, os.path.join(folder, 'crates', name, part))


if __name__ == '__main__':
    if len(sys.argv) < 3 or sys.argv[1].startswith('-'):
        sys.exit(print(__doc__) if sys.argv[1:2] == ['--help'] else __doc__)
    copy_sources(sys.argv[1], crates_below(sys.argv[2:]))
