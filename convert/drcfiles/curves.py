"""The order of points along a Hilbert curve, in which neighbours lie near each other, so that the differences from point to point are small.

Coordinates become numbers along the curve by the method of J. Skilling, "Programming the Hilbert curve", AIP Conference Proceedings 707 (2004)."""
import numpy as np

WORD = 62  # bits of a number along the curve that are compared at once


def order_of(places):
    """The numbers of points in their order along the curve; points at one place stay in theirs. `places` is a table of integers with a row for each
    point."""
    places = np.asarray(places, np.int64)
    axes = [column - column.min() if len(column) else column for column in places.T]
    bits = max(1, *(int(it.max(initial=0)).bit_length() for it in axes), 1)
    return np.lexsort(words_of(along(axes, bits), bits)[::-1])


def along(axes, bits):
    """The numbers along the curve of points of so many bits for each axis, which are bits of each axis in turn, from the highest on."""
    axes = [it.copy() for it in axes]
    for bit in range(bits - 1, 0, -1):
        high, rest = 1 << bit, (1 << bit) - 1
        for axis in axes:
            is_high = (axis & high) != 0
            swapped = np.where(is_high, 0, (axes[0] ^ axis) & rest)
            axes[0] ^= np.where(is_high, rest, swapped)
            axis ^= swapped
    for before, axis in zip(axes, axes[1:]):
        axis ^= before
    turned = np.zeros_like(axes[0])
    for bit in range(bits - 1, 0, -1):
        turned ^= np.where(axes[-1] & (1 << bit), (1 << bit) - 1, 0)
    return [it ^ turned for it in axes]


def words_of(axes, bits):
    """Numbers along the curve as words of integers, the highest first."""
    words, count = [], WORD
    for bit in range(bits - 1, -1, -1):
        for axis in axes:
            if count == WORD:
                words.append(np.zeros_like(axis))
                count = 0
            words[-1] <<= 1
            words[-1] |= axis >> bit & 1
            count += 1
    return words
