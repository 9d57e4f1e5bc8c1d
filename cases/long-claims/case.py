"""The longest claim that has a verdict, and one that is longer."""

from runs import Run


def places(count):
    """So many places of requests that were never invoked."""
    return "".join(f'{{"cmd":["get","61"],"ev":"place","id":[1,{seq}]}}\n' for seq in range(count))


def invoked_and_placed(count):
    """So many puts that complete one behind the other, and their order."""
    told = []
    for seq in range(1, count + 1):
        told.append(f'{{"cmd":["put","61","31"],"ev":"invoke","id":[1,{seq}]}}\n')
        told.append(f'{{"ans":["done"],"ev":"complete","id":[1,{seq}]}}\n')
    for seq in range(1, count + 1):
        told.append(f'{{"cmd":["put","61","31"],"ev":"place","id":[1,{seq}]}}\n')
    return "".join(told)


def runs():
    told = {"status": 1, "stderr": "curp: no, clause 1\n"}
    yield Run("400000-places-of-none", ["check"], lambda: places(400_000), "no 1\n", **told)
    yield Run("133333-requests", ["check"], lambda: invoked_and_placed(133_333), "yes\n")
    more = {"status": 7, "stderr": "curp: more than 400000 lines\n"}
    yield Run("400001-lines", ["check"], lambda: places(400_001), **more)
    # Whatever stands in the line.
    yield Run("400000-lines-and-no-json", ["check"], lambda: places(400_000) + "and this is no JSON\n", **more)
