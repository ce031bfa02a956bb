# SPDX-License-Identifier: MIT
"""Messages as records of a message file of version 2 (docs/FORMATS.md), without the padding of words."""
HEADER = b"NCPJ"
TO_IMP, FROM_IMP = 0x48, 0x49
REGULAR, NOP, RFNM, DEAD, INCOMPLETE, INTERFACE_RESET = 0, 4, 5, 7, 9, 10
ANSWERS = {RFNM, DEAD, INCOMPLETE}
BY_AN_IMP = {*ANSWERS, INTERFACE_RESET}  # types that no host sends
CONTROL_LINK, FIRST_LINK, LAST_LINK = 0, 2, 71
CONTROL_SIZE = 8
LEADER, PREFIX = 4, 9  # bytes: the leader, and the leader with the prefix of a regular message
MOST_BITS = 8192
PADDING = 52  # bits at most: up to a word of 36, and the IMP's own up to one of 16
MOST_BYTES = (MOST_BITS + PADDING) // 8


def kind_of(words):
    return words[0] & 15


def is_nop(words):
    return words[0] & 15 == NOP


def text_end(words):
    """The bit at which the text of a regular message ends by its size and count; None if they do not show it."""
    if kind_of(words) != REGULAR or len(words) < PREFIX:
        return None
    return 8 * PREFIX + words[5] * (words[6] << 8 | words[7])


def is_whole(words, hosts):
    """Whether words look like a whole message, of or to one of these hosts. After a loss there is no other evidence, and the end
    of a text may look much like it."""
    if len(words) == LEADER and words[0] != REGULAR:
        return words[0] in (NOP, INTERFACE_RESET) and not any(words[1:]) or words[0] in ANSWERS and words[1] in hosts and words[3] == 0
    end = text_end(words)
    if end is None or words[1] not in hosts or any((words[0], words[3], words[4], words[8])) or not 0 <= 8 * len(words) - end <= PADDING:
        return False
    link, size = words[2], words[5]
    return size == CONTROL_SIZE if link == CONTROL_LINK else FIRST_LINK <= link <= LAST_LINK and size > 0


def bits_of(words):
    """The bits of a message without the padding of its last word, if the end of its text is known."""
    bits, end = 8 * len(words), text_end(words)
    return end if end is not None and end < bits <= end + PADDING else bits


def is_too_long(words):
    return 8 * len(words) > MOST_BITS and bits_of(words) > MOST_BITS


def record(direction, host, words):
    """A record of a message that is not too long."""
    bits = bits_of(words)
    if bits < 8 * len(words):
        words = bytearray(words[: (bits + 7) // 8])
        words[-1] &= 0xFF << -bits % 8 & 0xFF
    return bytes((direction, host, bits >> 8, bits & 0xFF)) + words
