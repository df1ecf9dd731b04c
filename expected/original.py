#!/usr/bin/env python3
"""What all comparisons with the original, the Rust crate mp4 0.14.0, share: it is asked, our programs are run, each answer of
ours is held against a second implementation and against the original's, and what was found is told.

A comparison is a Domain: how its inputs are made, what our program is lent for one and what the original is asked, and the
numbers in docs/DIFFERENCES.md of the differences. expected/oracle*.py have them, and expected/differ goes through all.
"""
import collections
import pathlib
import random
import subprocess
import sys
import tempfile

import boxes


class Judged:
    """An input, our lines for each part of it, and the original's answers; `asked` has the names of the questions, each as often
    as it was asked, and `differences` those that have two answers, each with its numbers, or a text where it has none.
    `numbers` has all of these once."""

    def __init__(self, case, ours, theirs, asked, differences):
        self.case, self.ours, self.theirs, self.asked, self.differences = case, ours, theirs, asked, differences
        self.numbers = list(dict.fromkeys(number for _, numbers in differences for number in numbers))


class Domain:
    """One kind of inputs. `crate` is the program that answers for us."""
    name = crate = None

    def ordered(self):
        """The inputs that are made in an order, each once."""
        return []

    def chance(self, rnd):
        """One input by chance."""
        raise NotImplementedError

    def is_slow(self, case):
        """Whether the original would count for seconds, or for ever."""
        return False

    def made(self, count, seed):
        """So many inputs from the seed alone, none twice: the ordered ones, or as many of them as that allows, then others by
        chance. A few of those that the original is slow with are enough."""
        rnd = random.Random(seed)
        cases = self.ordered()
        if len(cases) > count:
            cases = rnd.sample(cases, count)
        slow = 0
        known = set(cases)
        while len(cases) < count:
            case = self.chance(rnd)
            slow += self.is_slow(case)
            if case not in known and not (self.is_slow(case) and slow > 6):
                known.add(case)
                cases.append(case)
        return cases

    def parts(self, case):
        """What our program is lent for an input: a row of bytes."""
        raise NotImplementedError

    def is_known(self, part):
        """Whether the program answers for such a part; of others the second implementation alone does."""
        return True

    def second(self, part):
        """The lines of the second implementation."""
        raise NotImplementedError

    def run(self, program, parts):
        """The lines of the program for each part."""
        raise NotImplementedError

    def commands(self, case):
        """What the original is asked."""
        raise NotImplementedError

    def theirs(self, oracle, answers):
        """The original's answers in the form in which they are compared and stored."""
        return answers

    def asked(self, case, theirs):
        """The names of the questions."""
        raise NotImplementedError

    def differences(self, case, ours, theirs):
        """For each question that has two answers its name and its numbers."""
        raise NotImplementedError


# THE ANSWERS

def ask(oracle, lines):
    """A line for each: where the oracle hangs or dies it is started anew behind that line."""
    answers = []
    while len(answers) < len(lines):
        run = subprocess.run(oracle.split(), input="\n".join(lines[len(answers):]) + "\n", capture_output=True, text=True)
        got = run.stdout.splitlines()
        if len(got) < len(lines) - len(answers) and not (got and got[-1] == "HANG"):
            got.append("ABORT %d" % run.returncode)
        answers += got
    return [answer.split(" at /rustc")[0] for answer in answers]


def in_groups(parts, most, head=0):
    """The parts in their order, so many to a group that they have at most so many bytes with their heads."""
    group, size = [], 0
    for part in parts:
        if group and size + head + len(part) > most:
            yield group
            group, size = [], 0
        group.append(part)
        size += head + len(part)
    if group:
        yield group


def over_packs(program, parts):
    """The lines of a program over packs of these parts."""
    with tempfile.TemporaryDirectory() as folder:
        for group in in_groups(parts, boxes.MOST_BYTES // 4, 4):
            pack = pathlib.Path(folder, "pack")
            pack.write_bytes(boxes.pack_of(group))
            yield from lines_of([*program.split(), str(pack)])[1:]  # the first is the pack's name


def over_input(program, parts, most):
    """The lines of a program that reads these parts from its standard input, at most so many bytes of them."""
    for group in in_groups(parts, most):
        yield from lines_of(program.split(), b"".join(group))


def lines_of(words, data=b""):
    return subprocess.run(words, input=data, capture_output=True, check=True).stdout.decode().splitlines()


def up_to_empty(lines):
    """Lines in groups, each of which ends with an empty one."""
    group = []
    for line in lines:
        group.append(line)
        if not line:
            yield group
            group = []


def program_faults(domain, program, parts, ours):
    """For each input where the program says otherwise than the second implementation."""
    lent = [part for some in parts for part in some if domain.is_known(part)]
    told = list(domain.run(program, lent))
    assert len(told) == len(lent), (domain.crate, len(told), len(lent))
    told = iter(told)
    faults = []
    for some, mine in zip(parts, ours):
        pairs = [(part, lines, next(told)) for part, lines in zip(some, mine) if domain.is_known(part)]
        faults.append([f"the program answers {other} to {part.hex()}, the second implementation {lines}"
                       for part, lines, other in pairs if lines != other])
    return faults


def judged(domain, cases, oracle, program=None):
    """Each input with both answers and the numbers of its differences; ours are the second implementation's, and must be
    the program's where there is one."""
    parts = [list(domain.parts(case)) for case in cases]
    ours = [[domain.second(part) for part in some] for some in parts]
    faults = [[] for _ in cases] if program is None else program_faults(domain, program, parts, ours)
    asked = [domain.commands(case) for case in cases]
    answers = iter(ask(oracle, [line for lines in asked for line in lines]))
    found = []
    for case, mine, lines, fault in zip(cases, ours, asked, faults):
        theirs = domain.theirs(oracle, [next(answers) for _ in lines])
        differences = [(domain.crate, fault)] if fault else []
        try:
            differences += domain.differences(case, mine, theirs)
        except AssertionError as wrong:
            differences.append(("form", [f"an answer has another form: {wrong}"]))
        found.append(Judged(case, mine, theirs, list(domain.asked(case, theirs)), differences))
    return found


# WHAT WAS FOUND

def is_listed(number):
    return isinstance(number, int)


def shown(domain, one):
    """An input that has a difference of no class, with what both say."""
    yield f"NEW, of {domain.name}:"
    yield from (f"  {text}" for text in one.numbers if not is_listed(text))
    yield from (f"  input {part.hex()}" for part in domain.parts(one.case))
    yield from (f"  ours {lines}" for lines in one.ours)
    yield from (f"  asked {line}" for line in domain.commands(one.case))
    yield f"  the original {one.theirs}"


def report(domain, found):
    """Tells how often each question was asked, and each number met; and every difference of no class. How many those are."""
    asked, unlike, met, smallest = collections.Counter(), collections.Counter(), collections.Counter(), {}
    strange = 0
    for one in found:
        asked.update(one.asked)
        for question, numbers in one.differences:
            unlike[question] += 1
            met.update((question, number) for number in filter(is_listed, numbers))
        rank = len(one.numbers), sum(map(len, domain.commands(one.case)))
        for number in filter(is_listed, one.numbers):
            if number not in smallest or rank < smallest[number][0]:
                smallest[number] = rank, domain.commands(one.case)[0]
        if not all(map(is_listed, one.numbers)):
            strange += 1
            if strange <= 20:
                print(*shown(domain, one), sep="\n")
    for question in asked:
        by_number = {number: n for (name, number), n in sorted(met.items()) if name == question}
        print(f"  {question}: {asked[question]}, {asked[question] - unlike[question]} alike, by number {by_number}")
    for number, (_, line) in sorted(smallest.items()):
        print(f"  difference {number}: {sum(number in one.numbers for one in found)} {domain.name}, smallest {line}")
    alike = sum(not one.numbers for one in found)
    print(f"in all {len(found)} {domain.name}, {alike} alike; {strange} with a difference of no class")
    return strange


def main(doc, domains, store):
    """The command of a comparison: ORACLE N SEED [PROGRAM], or --store ORACLE N SEED; its exit status."""
    words = sys.argv[1:]
    storing = words[:1] == ["--store"]
    words = words[storing:]
    if not 3 <= len(words) <= 4 - storing:
        print(doc)
        return 2
    oracle, count, seed = words[0], int(words[1]), int(words[2])
    program = words[3] if len(words) > 3 else None
    found = [judged(domain, domain.made(count, seed), oracle, program) for domain in domains]
    if sum([report(domain, some) for domain, some in zip(domains, found)]):
        return 1
    if storing:
        print(f"{store(*found, count, seed)} stored")
    return 0
