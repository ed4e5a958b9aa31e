"""Whether a history of operations on keys is linearizable: whether they could have been done one by one, each at some moment between its call and its
answer, with these answers. By the search of Wing and Gong, which remembers where it has been."""
from dataclasses import dataclass

from machine import Store


@dataclass
class Call:
    """An operation: when it was called, when it was answered, and what with. Without an answer it may have been done at any time since, or not at all."""

    op: dict
    called: float
    answered: float = float("inf")
    answer: dict | None = None


def done(value, op):
    """What an operation answers where a key has a value, and the value then."""
    key = op["key"]
    store = Store({} if value is None else {key: value})
    return store.do(op), store.values.get(key)


def is_linearizable(calls):
    """Whether the calls of one key are, from a key on that was never put."""
    calls = sorted((call for call in calls if call.answer or call.op["op"] != "get"), key=lambda call: call.called)
    due = sum(1 << k for k, call in enumerate(calls) if call.answer)
    seen, open_ = set(), [(0, None)]
    while open_:
        place = open_.pop()
        if place in seen:
            continue
        seen.add(place)
        if place[0] & due == due:
            return True
        open_ += nexts(calls, *place)
    return not calls


def nexts(calls, gone, value):
    """Where the search may go on, if these calls were done and the key has this value: by each call that no other must go before. One that changes
    nothing may as well be done at once, so then there is no other way."""
    first, found = float("inf"), []
    for k in range((~gone & (gone + 1)).bit_length() - 1, len(calls)):
        call = calls[k]
        if gone >> k & 1:
            continue
        if call.called > first:
            break
        first = min(first, call.answered)
        answer, after = done(value, call.op)
        if call.answer == answer and after == value:
            return [(gone | 1 << k, value)]
        if call.answer == answer or call.answer is None and after != value:
            found.append((gone | 1 << k, after))
    return found


def broken_keys(calls):
    """The keys whose calls aren't linearizable. (A history is if that of each key is.)"""
    by_key = {}
    for call in calls:
        by_key.setdefault(call.op["key"], []).append(call)
    return sorted(key for key, some in by_key.items() if not is_linearizable(some))
