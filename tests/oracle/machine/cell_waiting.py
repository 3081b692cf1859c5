#!/usr/bin/env python3
"""Explores how threads wait for a cell's machine, in every order of their steps.

The steps are those of `take`, `try_take`, `sleep`, `mark_again` and `wake` in
crates/volume_cell/src/cell.rt, repeated here by hand. Each run has so many threads, of which
each asks for so many turns, and a limit of the history. A run fails where a state is found from
which no thread can go on although some have not returned: a sleeper that nobody wakes.
`give_way` is no step: a thread that gives way goes on by itself and wakes nobody, so it is one
that comes later."""
import sys
from collections import deque

NOBODY, SLEEPS, URGES, LEFT = range(4)

# threads, turns of each, wakes in vain before a thread urges, limit of the history
RUNS = [(2, 3, 2, 99), (2, 3, 2, 4), (3, 2, 1, 99), (3, 2, 1, 3), (3, 2, 2, 99), (3, 2, 2, 3)]


def steps(state, vain, limit):
    """The states that one step of one thread leads to.

    A state is the first word, the mark, who is parked, and of each thread its next step, the turns
    that it has to make, how often it slept, the word that it found, and the mark that it found.
    """
    (word, mark, parked), threads = state
    for number, (step, turns, slept, found, seen) in enumerate(threads):

        def go(
            step, turns=turns, slept=slept, found=found, seen=seen, word=word, mark=mark, woken=None
        ):
            after = list(threads)
            after[number] = (step, turns, slept, found, seen)
            still = parked + (number,) if step == "parked" else parked
            if woken is not None:
                still = tuple(other for other in still if other != woken)
                _, its_turns, its_sleeps, _, _ = threads[woken]
                after[woken] = ("look", its_turns, min(its_sleeps + 1, vain + 1), 0, 0)
            return (word, mark, tuple(sorted(still))), tuple(after)

        awake = dict(slept=min(slept + 1, vain + 1), found=0, seen=0)
        last = step.endswith(" at the end")
        end = " at the end" if last else ""
        match step.removesuffix(" at the end"):
            case "look":
                yield go("mark at the end" if word == 2 * limit else "try", found=word)
            case "try":
                left = slept == 0 and mark == LEFT
                yield go("wait" if left or found % 2 == 1 else "exchange")
            case "exchange" if word == found:
                yield go("mark", word=word + 1, found=0)
            case "exchange":
                yield go("wait", found=0)
            case "mark":
                yield go("peek" + end if last else "give", mark=SLEEPS if slept else mark)
            case "give":
                yield go("peek", word=word + 1)
            case "peek":
                yield go("next" + end if mark == NOBODY else "unmark" + end, seen=mark)
            case "unmark" if mark == seen:
                yield go("wake" + end, mark=LEFT if seen == URGES else NOBODY)
            case "unmark":
                yield go("next" + end)
            case "wake" if parked:
                for other in parked:
                    yield go("next" + end, woken=other)
            case "wake":
                yield go("next" + end)
            case "next" if last or turns == 1:
                yield go("returned", turns=0, slept=0, found=0, seen=0)
            case "next":
                yield go("look", turns=turns - 1, slept=0, found=0, seen=0)
            case "wait":
                if mark == NOBODY:
                    yield go("look", found=0)
                wanted = max(mark, SLEEPS if slept < vain else URGES)
                yield go("check", found=0, seen=wanted, mark=wanted)
            case "check" if word % 2 == 1 or (slept == 0 and seen == LEFT):
                yield go("park")
            case "check":
                yield go("look", **awake)
            case "park" if mark == seen:
                yield go("parked")
            case "park":
                yield go("look", **awake)


def alike(state):
    """The same state with its threads in order, since it does not matter which is which."""
    (word, mark, parked), threads = state
    order = sorted(range(len(threads)), key=lambda number: threads[number])
    places = {number: place for place, number in enumerate(order)}
    return (word, mark, tuple(sorted(places[n] for n in parked))), tuple(threads[n] for n in order)


def explore(count, turns, vain, limit):
    first = alike(((0, NOBODY, ()), (("look", turns, 0, 0, 0),) * count))
    seen, ahead = {first}, deque([first])
    while ahead:
        state = ahead.popleft()
        stuck = True
        for after in map(alike, steps(state, vain, limit)):
            stuck = False
            if after not in seen:
                seen.add(after)
                ahead.append(after)
        if stuck and any(thread[0] != "returned" for thread in state[1]):
            return len(seen), state
    return len(seen), None


def main():
    for run in RUNS:
        states, stuck = explore(*run)
        print("threads {}, turns {}, wakes in vain {}, limit {}:".format(*run), states, "states")
        if stuck:
            print("failed: nobody can go on from", stuck)
            return 1
    return 0


sys.exit(main())
