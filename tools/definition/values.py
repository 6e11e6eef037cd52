"""Values at run time, and the functions that aren't translated.

A whole number is Python's, as are the truth values. A list is `()`, or a pair of its first item and the rest; another
constructor is a tuple that begins with its name, as `("Some", 3)`. A record is a `Record`. What isn't computed yet is a
`Later`, and stands only where a function takes it uncomputed, or in a pair, a constructor or a record.
"""

from dataclasses import dataclass

BOOL, NAT, LIST = "mathlib.Core.Bool.", "Prim.Native.Nat.", "mathlib.Core.List."
DEC, BITS, LISTN = "lib.Dec.", "lib.Bits.", "lib.ListN."
CORE, CORE_LIST = "Rattle.core.specs.", "Rattle.core.specs.List."


class Later:
    """A value that is computed on demand, once."""

    __slots__ = ("how", "value")

    def __init__(self, how):
        self.how = how

    def get(self):
        how = self.how
        if how is not None:
            value = how()
            while value.__class__ is Later:
                value = value.get()
            self.value, self.how = value, None
        return self.value


class Record:
    """A record, or a tuple, whose fields are `_0`, `_1`, .."""

    def __init__(self, **fields):
        self.__dict__ = fields


class NoClause(Exception):
    """No clause of a definition takes these arguments."""


def updated(record, **fields):
    """Returns a record with other values of some fields."""
    new = Record.__new__(Record)
    new.__dict__ = {**record.__dict__, **fields}
    return new


def now(value):
    """Computes a value."""
    return value if value.__class__ is not Later else value.get()


# ---- lists


def list_of(items, rest=()):
    """The list of these items, and then the rest."""
    for item in reversed(items):
        rest = (item, rest)
    return rest


def spine(items):
    """The items of a list, not computed."""
    found = []
    while items:
        found.append(items[0])
        items = items[1]
        if items.__class__ is Later:
            items = items.get()
    return found


def items_of(items):
    """The items of a list, each computed."""
    return [now(item) for item in spine(now(items))]


def bytes_of(items):
    return bytes(items_of(items))


# ---- whole numbers and texts


def divided(one, other):
    return one // other if other else 0


def rest_of(one, other):
    return one % other if other else one


def compared(one, other):
    return ("lt",) if one < other else ("eq",) if one == other else ("gt",)


def codes(text):
    return list_of(text.encode())


def same(one, other):
    """The equality that the code derives."""
    one, other = now(one), now(other)
    if isinstance(one, Record):
        return all(same(value, other.__dict__[label]) for label, value in one.__dict__.items())
    if isinstance(one, tuple):
        return len(one) == len(other) and all(map(same, one, other))
    return one == other


# ---- functions of lists and bytes, by hand for speed


def appended(items, rest):
    return list_of(spine(items), rest) if items else now(rest)


def mapped(function, items):
    return list_of([Later(lambda item=item: function(item)) for item in spine(items)])


def reversed_(items):
    return list_of(spine(items)[::-1])


LENGTHS, STRIDE = {}, 16


def length(items):
    """The length of a list. Those of long lists are kept for every 16th of their cells: the grammars ask them of each rest."""
    count = 0
    while items and count < STRIDE:
        count += 1
        items = items[1]
        if items.__class__ is Later:
            items = items.get()
    return count + length_of_rest(items) if items else count


def length_of_rest(items):
    count, cells = 0, []
    while items:
        known = LENGTHS.get(id(items))
        if known:
            count += known[1]
            break
        cells.append(items)
        count += 1
        items = items[1]
        if items.__class__ is Later:
            items = items.get()
    for at in range(0, len(cells), STRIDE):
        # the cell is kept, so that no other cell gets its id
        LENGTHS[id(cells[at])] = cells[at], count - at
    return count


def item_or(items, at, other):
    while items:
        if at == 0:
            return now(items[0])
        at -= 1
        items = now(items[1])
    return now(other)


def front(count, items):
    found, items = [], now(items) if count else ()
    while items and count:
        found.append(items[0])
        count -= 1
        items = now(items[1]) if count else ()
    return list_of(found)


def behind(count, items):
    while items and count:
        count -= 1
        items = now(items[1])
    return items


def with_item(items, at, item):
    before, rest = [], items
    while rest:
        if at == 0:
            return list_of(before, (item, rest[1]))
        before.append(rest[0])
        at -= 1
        rest = now(rest[1])
    return items


def copies(count, item):
    return list_of([item] * count)


def filtered(test, items):
    while items:
        item, rest = items
        if test(item):
            return (item, Later(lambda: filtered(test, now(rest))))
        items = now(rest)
    return ()


def any_of(test, items):
    while items:
        if test(items[0]):
            return True
        items = now(items[1])
    return False


def all_of(test, items):
    while items:
        if not test(items[0]):
            return False
        items = now(items[1])
    return True


def first_of(test, items):
    while items:
        if test(items[0]):
            return ("Some", items[0])
        items = now(items[1])
    return ("None",)


def joined(function, items):
    while items:
        item, rest = items
        found = function(item)
        if found:
            return appended(found, Later(lambda: joined(function, now(rest))))
        items = now(rest)
    return ()


def folded(function, value, items):
    while items:
        value = function(value)(items[0])
        items = now(items[1])
    return now(value)


def summed(function, items):
    total = 0
    while items:
        total += function(items[0])
        items = now(items[1])
    return total


def while_so(test, items):
    count = 0
    while items and test(items[0]):
        count += 1
        items = now(items[1])
    return count


def until_so(test, items):
    return while_so(lambda item: not test(item), items)


def position(test, items):
    at = 0
    while items:
        if test(items[0]):
            return ("Some", at)
        at += 1
        items = now(items[1])
    return ("None",)


def item_at(items, at):
    while items:
        if at == 0:
            return ("Some", items[0])
        at -= 1
        items = now(items[1])
    return ("None",)


def decimal(number):
    return codes(str(number))


def are_pointwise(test, ones, others):
    while ones and others:
        if not test(ones[0])(others[0]):
            return False
        ones, others = now(ones[1]), now(others[1])
    return not ones and not others


def ordered(order, ones, others):
    """The first items that differ decide, then the lengths."""
    while ones and others:
        found = order(ones[0])(others[0])
        if found[0] != "Equal":
            return found
        ones, others = now(ones[1]), now(others[1])
    return ("Greater",) if ones else ("Less",) if others else ("Equal",)


def are_same_bytes(ones, others):
    while ones and others and ones is not others:
        if now(ones[0]) != now(others[0]):
            return False
        ones, others = now(ones[1]), now(others[1])
    return ones is others or not ones and not others


def is_utf8(items):
    try:
        bytes_of(items).decode("utf-8")
    except ValueError:
        return False
    return True


# ---- the names of these functions


@dataclass(slots=True)
class Native:
    """The arguments of a function: their number, those that are surely computed, those that may be; and its Python."""

    arity: int
    strict: tuple
    form: str
    late: tuple = ()


def native(arity, form, strict=None, late=()):
    return Native(arity, tuple(range(arity)) if strict is None else strict, form, late)


# Taken for granted: whole numbers, truth values and text literals.
NATIVE = {
    NAT + "pred": native(1, "max({0} - 1, 0)"),
    NAT + "◌+◌": native(2, "({0} + {1})"),
    NAT + "◌-◌": native(2, "max({0} - {1}, 0)"),
    NAT + "◌*◌": native(2, "({0} * {1})"),
    NAT + "◌/◌": native(2, "divided({0}, {1})"),
    NAT + "◌%◌": native(2, "rest_of({0}, {1})"),
    NAT + "◌^◌": native(2, "({0} ** {1})"),
    NAT + "min": native(2, "min({0}, {1})"),
    NAT + "max": native(2, "max({0}, {1})"),
    NAT + "compare": native(2, "compared({0}, {1})"),
    BOOL + "not": native(1, "(not {0})"),
    BOOL + "◌&&◌": native(2, "({0} and {1})", (0,), (1,)),
    BOOL + "◌||◌": native(2, "({0} or {1})", (0,), (1,)),
    BOOL + "cond": native(3, "({1} if {0} else {2})", (0,), (1, 2)),
    BOOL + "beq": native(2, "({0} == {1})"),
    BOOL + "xor": native(2, "({0} != {1})"),
    DEC + "eqb": native(2, "({0} == {1})"),
    DEC + "ltb": native(2, "({0} < {1})"),
    DEC + "leb": native(2, "({0} <= {1})"),
    CORE + "Bool.◌==◌": native(2, "({0} == {1})"),
    BITS + "bit_and": native(2, "({0} & {1})"),
    BITS + "bit_or": native(2, "({0} | {1})"),
    BITS + "bit_xor": native(2, "({0} ^ {1})"),
    "lib.Chars.codes": native(1, "codes({0})"),
}

# By hand for speed; `--plain` translates these too.
FAST = {
    LIST + "◌++◌": native(2, "appended({0}, {1})", (0,)),
    LIST + "map": native(2, "mapped({0}, {1})"),
    LIST + "reverse": native(1, "reversed_({0})"),
    LISTN + "length": native(1, "length({0})"),
    LISTN + "get_or": native(3, "item_or({0}, {1}, {2})", (0, 1)),
    LISTN + "take": native(2, "front({0}, {1})", (0,)),
    LISTN + "drop": native(2, "behind({0}, {1})"),
    LISTN + "set": native(3, "with_item({0}, {1}, {2})", (0, 1)),
    LISTN + "replicate": native(2, "copies({0}, {1})", (0,)),
    CORE_LIST + "filter": native(2, "filtered({0}, {1})"),
    CORE_LIST + "list_any": native(2, "any_of({0}, {1})"),
    CORE_LIST + "list_all": native(2, "all_of({0}, {1})"),
    CORE_LIST + "find": native(2, "first_of({0}, {1})"),
    CORE_LIST + "flat_map": native(2, "joined({0}, {1})"),
    CORE_LIST + "fold": native(3, "folded({0}, {1}, {2})", (0, 2)),
    CORE_LIST + "sum_by": native(2, "summed({0}, {1})"),
    CORE_LIST + "prefix_len": native(2, "while_so({0}, {1})"),
    CORE_LIST + "position_or_len": native(2, "until_so({0}, {1})"),
    CORE_LIST + "position": native(2, "position({0}, {1})"),
    CORE_LIST + "slice_get": native(2, "item_at({0}, {1})"),
    CORE + "Cmp.Lexicographic.slice_cmp": native(3, "ordered({0}, {1}, {2})"),
    CORE + "Fmt.decimal": native(1, "decimal({0})"),
    CORE + "Str.bytes_eq": native(2, "are_same_bytes({0}, {1})"),
    CORE + "Str.is_utf8": native(1, "is_utf8({0})"),
    "lib.Pointwise.pointwise": native(3, "are_pointwise({0}, {1}, {2})"),
}

# Cheap enough to be computed at once if the arguments are known.
CHEAP = {NAT + "◌+◌", NAT + "◌-◌", NAT + "◌*◌", NAT + "min", NAT + "max", DEC + "eqb", DEC + "ltb", DEC + "leb",
         CORE + "Bool.◌==◌", BOOL + "not"}

CONSTRUCTORS = {
    NAT + "zero": ("zero", 0), NAT + "suc": ("suc", 1), BOOL + "true": ("true", 0), BOOL + "false": ("false", 0),
    NAT + "Ordering.lt": ("lt", 0), NAT + "Ordering.eq": ("eq", 0), NAT + "Ordering.gt": ("gt", 0),
    LIST + "[]": ("nil", 0), LIST + "◌∷◌": ("cons", 2), LIST + "Defs.[]": ("nil", 0), LIST + "Defs.◌∷◌": ("cons", 2),
    "Prim.tt": ("tt", 0),
}


# ---- memoised calls


class Keys:
    """Numbers for values, the same for values that are the same; of functions, for the same function."""

    def __init__(self):
        self.by_place, self.numbers = {}, {}

    def key(self, value):
        value = now(value)
        if value.__class__ in (int, bool, str) or value == ():
            return value
        found = self.by_place.get(id(value))
        if found is None:
            # the value is kept, so that no other value gets its id
            found = self.by_place[id(value)] = value, ("#", self.numbers.setdefault(self.whole(value), len(self.numbers)))
        return found[1]

    def whole(self, value):
        if value.__class__ is Record:
            return ("record", *((label, self.key(item)) for label, item in value.__dict__.items()))
        if value.__class__ is tuple and value[0].__class__ is str:
            return (value[0], *(self.key(item) for item in value[1:]))
        if value.__class__ is tuple:
            return ("list", *map(self.key, items_of(value)))
        return ("function", id(value))


KEYS = Keys()
MEMOS = [KEYS.by_place, KEYS.numbers, LENGTHS]


def forget():
    """Drops what is kept of calls and lists."""
    for memo in MEMOS:
        memo.clear()


def shared(function):
    """The function, each call of which is computed once for the same arguments."""
    known = {}
    MEMOS.append(known)

    def once(*args):
        key = tuple(map(KEYS.key, args))
        if key not in known:
            known[key] = function(*args)
        return known[key]

    return once
