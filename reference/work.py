"""What work an edit takes: which tokens and items of a text are fresh, which items are stale, and how many entries
move. Both texts are compiled from scratch, and compared."""
import functools
from bisect import bisect_left, bisect_right
from collections import namedtuple

import rpclang

# What an item sees of a name: whether nobody declares it, or who declares it first, an earlier item, its own or a
# later one; as what it is declared there, and whether lifted; and, where an earlier item declares it, what it means.
View = namedtuple("View", "declarer shape lifted meaning")

# What an edit takes, and where the seats are after it.
Work = namedtuple("Work", "lexed parsed checked moved seats")

# The indexes behind the tokens and behind the items that were put in last.
Seats = namedtuple("Seats", "tokens items")


class Reading:
    """A text, what it is compiled to, and where its tokens and items end. The last item has no end of its own."""

    def __init__(self, text):
        self.compilation = compilation = rpclang.Compilation(text)
        self.text = text
        self.tokens = compilation.tokens
        self.items = compilation.items
        self.definitions = compilation.definitions
        self.first = compilation.first
        self.meanings = compilation.meanings
        self.boundaries = [0] + [token.end for token in self.tokens]
        self.item_boundaries = [0] + [item[-1].end for item in self.items[:-1]]
        self.ends = set(self.boundaries)
        self.item_ends = set(self.item_boundaries)

    def is_line_start(self, place):
        return place == 0 or self.text[place - 1] == 10

    def view(self, item, name):
        """What this item sees of a name. One that is declared beforehand has a declarer before all items."""
        first = self.first.get(name)
        if first is None:
            return View("nobody", None, None, None)
        if first.item < item:
            return View("earlier", first.shape, first.lifted, self.meanings[name])
        return View("own" if first.item == item else "later", first.shape, first.lifted, None)


def edited(text, edit):
    start, end, insert = edit
    return text[:start] + insert + text[end:]


def before(edit, place):
    """The old place of one behind what was inserted."""
    start, end, insert = edit
    return place - len(insert) + end - start


def agreeing(old, edit, new):
    """The first place behind what was inserted where a token ends or the text starts in both texts, and a
    line starts in both or in neither. None where there is no such place."""
    for place in new.boundaries[bisect_left(new.boundaries, edit[0] + len(edit[2])):]:
        was = before(edit, place)
        if was in old.ends and new.is_line_start(place) == old.is_line_start(was):
            return place
    return None


def agreeing_item(old, edit, new, rest):
    """The first such place, from the first one on, where an item ends or the text starts in both texts
    too."""
    if rest is None:
        return None
    for place in new.item_boundaries[bisect_left(new.item_boundaries, rest):]:
        was = before(edit, place)
        if was in old.item_ends and new.is_line_start(place) == old.is_line_start(was):
            return place
    return None


def ended(reading, place):
    """How many tokens end before this place."""
    return bisect_left(reading.boundaries, place, 1) - 1


def token_change(old, edit, new, rest):
    """The old tokens that go, from the first to before the last, and how many tokens of the new text are
    fresh, where those from `rest` on stay."""
    first, fresh = ended(old, edit[0]), ended(new, edit[0])
    if rest is None:
        return first, len(old.tokens), len(new.tokens) - fresh
    last = bisect_right(old.boundaries, before(edit, rest), 1) - 1
    return first, last, max(0, bisect_right(new.boundaries, rest, 1) - 1 - fresh)


def kept_items(old, edit, new):
    """The items that stay: for the number of each in the new text the one that it has in the old text. All others are
    fresh."""
    rest = agreeing_item(old, edit, new, agreeing(old, edit, new))
    kept = {}
    for item, begin in enumerate(new.item_boundaries):
        if item + 1 < len(new.items) and new.item_boundaries[item + 1] < edit[0]:
            kept[item] = item
        elif rest is not None and begin >= rest:
            kept[item] = item - len(new.items) + len(old.items)
    return kept


@functools.lru_cache(rpclang.KEPT)
def names_seen(definition):
    """The names that an item declares or uses."""
    return {name.name for name in rpclang.declared(definition) + rpclang.mentioned(definition)}


def changed_views(old, new, kept):
    """Of each item that stays and has a definition, by its number in the new text, the names that it sees in another
    way than before: by the name, what it saw and what it sees."""
    changed = {}
    for item, before in kept.items():
        if new.definitions[item] is not None:
            views = {name: (old.view(before, name), new.view(item, name))
                     for name in names_seen(new.definitions[item])}
            changed[item] = {name: (was, sees) for name, (was, sees) in views.items() if was != sees}
    return changed


def stale_items(old, new, kept):
    """The items of the new text that have a definition, and are fresh or see a name in another way than before."""
    changed = changed_views(old, new, kept)
    return [item for item, definition in enumerate(new.definitions)
            if definition is not None and (item not in changed or changed[item])]


def recut_place(old, new, kept):
    """The old items that go, from the first to before the last, and how many items of the new text are fresh."""
    first = next((item for item in range(len(new.items)) if kept.get(item) != item), len(new.items))
    return first, first + len(old.items) - len(kept), len(new.items) - len(kept)


def changed_items(place, stale, kept):
    """The items that change, in order: each the old items from the first to before the last, and the index behind those
    of the new text. They are the recut place, where anything goes or comes there, and the stale items that stay. A
    stale item before a place where none comes has the same index, and stands first."""
    first, last, added = place
    changed = [(kept[item], kept[item] + 1, item + 1) for item in stale if item in kept]
    if first < last or added:
        changed.append((first, last, first + added))
    return sorted(changed, key=lambda change: change[2])


def steps(seat, first, last):
    """How many entries lie between a seat and those from the first to before the last."""
    return max(0, first - seat, seat - last)


def moved_items(seat, changed):
    """How many items move where these are put in place from the first to the last: those from the seat to the first,
    and those between the first and the last that do not change. And where the seat is then."""
    if not changed:
        return 0, seat
    between = changed[-1][0] - changed[0][1] - sum(last - first for first, last, _ in changed[1:-1])
    return steps(seat, *changed[0][:2]) + max(0, between), changed[-1][2]


def seats_of(reading):
    """The seats once a text is opened: behind all tokens and all items."""
    return Seats(len(reading.tokens), len(reading.items))


def work_of(old, edit, new, seats):
    """What work the edit takes by the two readings, from these seats."""
    first, last, lexed = token_change(old, edit, new, agreeing(old, edit, new))
    kept = kept_items(old, edit, new)
    place, stale = recut_place(old, new, kept), stale_items(old, new, kept)
    moved, seat = moved_items(seats.items, changed_items(place, stale, kept))
    return Work(lexed, place[2], len(stale), steps(seats.tokens, first, last) + moved, Seats(first + lexed, seat))


def line_of(work):
    """The work as a line of counts."""
    return "lexed %d parsed %d checked %d moved %d" % work[:4]


def counts(text, edit):
    """How many tokens are lexed, how many items parsed and how many checked where this text is edited so."""
    old = Reading(text)
    return work_of(old, edit, Reading(edited(text, edit)), seats_of(old))[:3]
