#!/usr/bin/env python3
"""Host code, not proved: writes the job of a made-up circuit, for examples and trials.

    circuit.py poseidon N      N permutations of sponges like Poseidon's, 16 sponges taking turns: a state of
                               12, 8 full rounds and 22 partial ones; each takes in 8 places that are set
    circuit.py chain N         N registrations, each reading what the one before it wrote
    circuit.py wide N          N registrations that read nothing
    circuit.py backwards N     N registrations sent in reverse: each waits for the one that comes after it

    --parallelism P            P of the job, 8 unless given
    --lanes L                  the registrations take the lanes 0 to L - 1 in turn; without it no lane line is written

The same words always give the same job. The exit status is 2 where a word is wrong, the circuit would have more
than 16,777,216 places, or the job cannot be written.
"""
import argparse
import itertools
import os
import sys

MOST_PLACES, LANES = 16_777_216, 256  # no job has more
STATE, RATE, SPONGES, ROUNDS = 12, 8, 16, 30
FULL = {*range(4), *range(26, 30)}


def add(inputs, outputs):
    return f"in={','.join(map(str, inputs))}\nout={','.join(map(str, outputs))}\n"


def powers(number):
    """How many of the state a round raises to a power."""
    return STATE if number in FULL else 1


def permutation(fresh, state):
    """One permutation: every round raises some of the state to a power, then mixes all of it."""
    for number in range(ROUNDS):
        for i in range(powers(number)):
            powered = next(fresh)
            yield add([state[i]], [powered])
            state[i] = powered
        mixed = [next(fresh) for _ in state]
        yield add(state, mixed)
        state[:] = mixed


def poseidon(count):
    fresh, sponges = itertools.count(), {}
    for number in range(count):
        state = sponges.setdefault(number % SPONGES, [None] * STATE)
        for i in range(STATE):
            if i < RATE or state[i] is None:
                state[i] = next(fresh)
                yield f"set={state[i]}\n"
        yield from permutation(fresh, state)


def poseidon_places(count):
    """Those that are set, all of the state for a sponge's first permutation, and those that the rounds write."""
    written = sum(powers(number) + STATE for number in range(ROUNDS))
    return count * (RATE + written) + min(count, SPONGES) * (STATE - RATE)


def chain(count):
    for place in range(count):
        yield add([place - 1] if place else [], [place])


def wide(count):
    for place in range(count):
        yield add([], [place])


def backwards(count):
    for place in range(count, 0, -1):
        yield add([place - 1], [place])
    yield "set=0\n"


# Of each kind its calls, and how many places they name, which the job's head says before them.
KINDS = {
    "poseidon": (poseidon, poseidon_places),
    "chain": (chain, lambda count: count),
    "wide": (wide, lambda count: count),
    "backwards": (backwards, lambda count: count + 1),
}


def in_lanes(calls, count):
    """The calls, a line with its lane before each registration."""
    turns = itertools.cycle(range(count))
    return (f"lane={next(turns)}\n{call}" if call.startswith("in=") else call for call in calls)


def positive(word):
    if not (word.isascii() and word.isdigit() and len(word) <= 20) or int(word) == 0:
        raise argparse.ArgumentTypeError("a number from 1 on, of at most 20 digits")
    return int(word)


def lanes(word):
    if positive(word) > LANES:
        raise argparse.ArgumentTypeError(f"a number from 1 to {LANES}")
    return int(word)


def main():
    name = os.path.basename(sys.argv[0])  # as it was called: an installation has it as order-circuit
    parser = argparse.ArgumentParser(prog=name, description=__doc__.replace("circuit.py", name),
                                     formatter_class=argparse.RawDescriptionHelpFormatter)
    parser.add_argument("kind", choices=KINDS)
    parser.add_argument("count", type=positive, metavar="N")
    parser.add_argument("--parallelism", type=positive, default=8, metavar="P")
    parser.add_argument("--lanes", type=lanes, metavar="L")
    options = parser.parse_args()
    calls_of, places_of = KINDS[options.kind]
    calls, places = calls_of(options.count), places_of(options.count)
    if options.lanes is not None:
        calls = in_lanes(calls, options.lanes)
    if places > MOST_PLACES:
        return f"{name}: {options.kind} {options.count} has {places:,} places, and a job has at most {MOST_PLACES:,}"
    if sys.stdout is None:
        return f"{name}: standard output is closed"
    try:
        sys.stdout.write(f"parallelism={options.parallelism}\nplaces={places}\n")
        sys.stdout.writelines(calls)
        sys.stdout.write("final=1\n")
        sys.stdout.flush()
    except OSError as error:
        # Python would try again at its end.
        os.dup2(os.open(os.devnull, os.O_WRONLY), sys.stdout.fileno())
        if not isinstance(error, BrokenPipeError):
            return f"{name}: the job cannot be written: {error}"
    return None


if __name__ == "__main__":
    failure = main()
    if failure:
        print(failure, file=sys.stderr)
        sys.exit(2)
