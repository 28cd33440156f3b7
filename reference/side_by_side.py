"""Comparisons in parts, on as many processors as there are, and cases made small."""
import gc
import multiprocessing
import os

# After so many parts a process makes way for a new one, with nothing kept.
MOST_PARTS = 100


def without_search():
    """Nothing here is kept by what it keeps itself, so no search for such things is worth its time."""
    gc.disable()


def first_found(compare, parts):
    """What is found in the first part in which anything is, or None; and the sum of what was counted in the
    parts before it. `compare` answers such a pair of one part."""
    counts, processors = None, len(os.sched_getaffinity(0))
    with multiprocessing.Pool(processors, without_search, maxtasksperchild=MOST_PARTS) as pool:
        for found, counted in pool.imap(compare, parts):
            if found is not None:
                return found, counts
            counts = counted if counts is None else counts + counted
    return None, counts


def shorter(parts, differs):
    """Without the pieces that a difference does not need: of each of the parts, long pieces first."""
    for k in range(len(parts)):
        length = len(parts[k])
        while length:
            at = 0
            while at < len(parts[k]):
                fewer = parts[:k] + [parts[k][:at] + parts[k][at + length:]] + parts[k + 1:]
                if differs(fewer):
                    parts = fewer
                else:
                    at += length
            length //= 2
    return parts
