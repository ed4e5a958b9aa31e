"""The store itself: a dictionary, changed by the casts of one order, so that all copies are alike."""

KINDS = {"get": {}, "put": {"value": (str, int)}, "add": {"value": (int,)}, "cas": {"old": (str, int, type(None)), "new": (str, int)}}
LARGEST = 2**63 - 1


class Store:
    """Keys with values, which are strings or whole numbers; a key that was never put has the value None."""

    def __init__(self, values=None):
        self.values = dict(values or {})

    def do(self, op):
        """Does an operation, and gives the answer to it."""
        key = op["key"]
        now = self.values.get(key)
        match op["op"]:
            case "put":
                self.values[key] = op["value"]
            case "add":
                return self.add(key, now or 0, op["value"])
            case "cas":
                if now != op["old"]:
                    return {"done": False, "value": now}
                self.values[key] = op["new"]
                return {"done": True, "value": op["new"]}
        return {"value": self.values.get(key)}

    def add(self, key, now, value):
        if isinstance(now, str) or abs(now + value) > LARGEST:
            return {"error": "no number"}
        self.values[key] = now + value
        return {"value": now + value}


def fault(op):
    """Why a client's operation is none, or nothing."""
    if not isinstance(op, dict) or op.get("op") not in KINDS:
        return "no such operation"
    if not isinstance(op.get("key"), str):
        return "no key"
    for name, types in KINDS[op["op"]].items():
        value = op.get(name, ...)
        if not isinstance(value, types) or isinstance(value, bool) or isinstance(value, int) and abs(value) > LARGEST:
            return f"no {name}"
    return None
