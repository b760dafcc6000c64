#!/usr/bin/env python3
"""Writes the store-buffer machine of one program as a Promela model for SPIN, for exploration alone.

Usage: promela.py FILE-OF-WORDS > MODEL

Each thread is a process whose place in its code is the pc, so that a move is one step of one process and SPIN's states
are the machine's, one to one: a process that is at its end blocks there instead of ending. At each pc there is a choice
between the next instruction and the oldest waiting store going to memory, each one indivisible step. Registers, memory
and waiting stores are packed in words as in the benchmark's Rust programs, so that SPIN's state vector is small; a
waiting store's nibbles are cleared when it goes, so that equal states are equal vectors.
"""
import sys


def threads_of(words):
    """The threads of a program as words, each a list of (code, first, second, third)."""
    count, at, threads = words[0], 1, []
    for _ in range(count):
        length = words[at]
        at += 1
        threads.append([tuple(words[at + 4 * k:at + 4 * k + 4]) for k in range(length)])
        at += 4 * length
    if at != len(words):
        raise ValueError("words left over")
    return threads


def nibble(word, at):
    return f"(({word} >> {4 * at}) & 15)"


def with_nibble(word, at, value):
    return f"{word} = ({word} & {~(15 << 4 * at)}) | (({value}) << {4 * at})"


def step(t, code, most_waiting):
    """One instruction of thread t as an indivisible step; the first statement says when it can be done."""
    kind, first, second, third = code
    regs, values, places, waiting = f"regs{t}", f"values{t}", f"places{t}", f"waiting{t}"
    if kind == 0:
        return f"d_step {{ {with_nibble(regs, first, second)} }}"
    if kind == 1:
        total = f"({nibble(regs, second)} + {nibble(regs, third)}) & 15"
        return f"d_step {{ {with_nibble(regs, first, total)} }}"
    if kind == 2:
        # the newest waiting store to the place, else memory
        value = nibble("memory", second)
        for at in range(most_waiting):
            hit = f"{waiting} > {at} && {nibble(places, at)} == {second}"
            value = f"({hit} -> {nibble(values, at)} : {value})"
        return f"d_step {{ {with_nibble(regs, first, value)} }}"
    if kind == 3:
        return (f"d_step {{ {values} = {values} | ({nibble(regs, second)} << (4 * {waiting})); "
                f"{places} = {places} | ({first} << (4 * {waiting})); {waiting}++ }}")
    return f"d_step {{ {waiting} == 0 -> skip }}"


def model(threads):
    lines = ["int memory;"]
    for t in range(len(threads)):
        lines += [f"int regs{t}; int values{t}; int places{t}; byte waiting{t};"]
    for t, code in enumerate(threads):
        # the shifts of a negative int copy its sign: 268435455 takes the copies away
        flush = (f"d_step {{ waiting{t} > 0 -> "
                 f"memory = (memory & ~(15 << (4 * (places{t} & 15)))) | "
                 f"((values{t} & 15) << (4 * (places{t} & 15))); "
                 f"values{t} = (values{t} >> 4) & 268435455; places{t} = (places{t} >> 4) & 268435455; "
                 f"waiting{t}-- }}")
        lines += ["", f"active proctype thread{t}() {{"]
        stores = 0
        for k, four in enumerate(code):
            lines += [f"  do", f"  :: {step(t, four, stores)}; break", f"  :: {flush}", f"  od;"]
            stores += four[0] == 3
        lines += ["end:", "  do", f"  :: {flush}", "  od", "}"]
    return "\n".join(lines) + "\n"


def main():
    if len(sys.argv) != 2:
        sys.exit(__doc__)
    with open(sys.argv[1]) as file:
        words = [int(word) for word in file.read().split()]
    sys.stdout.write(model(threads_of(words)))


if __name__ == "__main__":
    main()
