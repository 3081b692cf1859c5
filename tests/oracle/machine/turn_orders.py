#!/usr/bin/env python3
"""How many orders there are in which two lanes of clients and a conversion of four blocks make
their turns, and what each leaves: by locks and turns alone, without a disk, a header or a key.

A lane begins its operation, makes a piece for each run of blocks on one side, settles a write
that is to be kept for certain, and finishes it; a flush begins and settles. A zone's first turn
enters its blocks into the list of locks, fourteen device calls follow, the last of which moves
the boundary, and one turn leaves the blocks. The finish has six device calls, and one turn tells
that it is made. A turn that changes nothing, because its lane waits, is none of an order."""

import collections

BLOCKS, CALLS, FINISH = 4, 14, 7
WORKER = 2

# `entries` are those that entered, in order, each with its first block, its end and whether it is
# alone there; a flush has no blocks. `lanes` tell of each operation its next block and whether it
# is settled, or that it has ended; `made` are the turns of the next zone behind `zones` of them.
State = collections.namedtuple("State", "entries lanes zones made plain")
START = State((), (None, None), 0, 0, (0,) * BLOCKS)


class Orders:
    def __init__(self, zone, forward, asks):
        self.zone, self.forward, self.asks = zone, forward, asks

    def boundary(self, state):
        zones = state.zones + (1 if state.made == CALLS + 1 else 0)
        return zones * self.zone if self.forward else BLOCKS - zones * self.zone

    def is_new(self, state, block):
        return (block < self.boundary(state)) == self.forward

    def waits(self, state, who):
        place = [entry[0] for entry in state.entries].index(who)
        _, first, end, alone = state.entries[place]
        return any(
            start < end and first < last and (alone or sole)
            for _, start, last, sole in state.entries[:place]
        )

    def left(self, state, who):
        return tuple(entry for entry in state.entries if entry[0] != who)

    def work(self, state):
        """Behind the conversion's next turn, or None where it waits or has ended."""
        if state.zones == BLOCKS // self.zone:
            return state._replace(made=state.made + 1) if state.made < FINISH else None
        if state.made == 0:
            at = self.boundary(state)
            first = at if self.forward else at - self.zone
            entry = (WORKER, first, first + self.zone, True)
            return state._replace(entries=state.entries + (entry,), made=1)
        if self.waits(state, WORKER):
            return None
        if state.made <= CALLS:
            return state._replace(made=state.made + 1)
        return state._replace(entries=self.left(state, WORKER), zones=state.zones + 1, made=0)

    def lane(self, state, who):
        """Behind a lane's next turn, or None where it waits or has ended."""
        kind, first, count, forced = self.asks[who]
        end = first + count

        def stands(lane, **more):
            lanes = tuple(lane if k == who else other for k, other in enumerate(state.lanes))
            return state._replace(lanes=lanes, **more)

        now = state.lanes[who]
        if now == "ended":
            return None
        if now is None:
            entry = (who, first, end, kind == "write")
            return stands((first, False), entries=state.entries + (entry,))
        if kind == "flush":
            return stands("ended", entries=self.left(state, who))
        if self.waits(state, who):
            return None
        at, settled = now
        if at < end:
            side = self.is_new(state, at)
            while at < end and self.is_new(state, at) == side:
                at += 1
            return stands((at, settled))
        if forced and not settled:
            return stands((at, True))
        plain = state.plain
        if kind == "write":
            plain = plain[:first] + (who + 1,) * count + plain[end:]
        return stands("ended", entries=self.left(state, who), plain=plain)

    def nexts(self, state):
        found = [self.lane(state, 0), self.lane(state, 1), self.work(state)]
        return [state for state in found if state is not None]

    def walk(self):
        """How many orders there are, over how many states, and how many leave what."""
        level, orders, states, ends = {START: 1}, 0, 0, collections.Counter()
        while level:
            following = collections.Counter()
            for state, count in level.items():
                states += 1
                nexts = self.nexts(state)
                if not nexts:
                    assert state.lanes == ("ended", "ended") and state.made == FINISH
                    ends[state.plain] += count
                    orders += count
                for one in nexts:
                    following[one] += count
            level = following
        return orders, states, ends


def told(zone, forward, asks):
    orders, states, ends = Orders(zone, forward, asks).walk()
    spelt = {"".join(f".{byte}" for byte in end): count for end, count in ends.items()}
    lines = [f"{end} by {count}" for end, count in sorted(spelt.items())]
    return f"{orders} orders, {states} places; " + " ".join(lines)


def main():
    """A write beside a read, by zones of two blocks, and two writes beside each other, by one
    zone."""
    beside = [("write", 0, 2, False), ("read", 1, 2, False)]
    print("zones of 2 forward, a write and a read:", told(2, True, beside))
    both = [("write", 2, 2, False), ("write", 1, 2, False)]
    print("a zone of 4 backward, two writes:", told(4, False, both))


if __name__ == "__main__":
    main()
