"""Writes the bytes of packets, in either format, and damages bytes: what the tests hand in.

Operations, names, capabilities and pids are as in flume_tags.py. docs/FORMATS.md says the bytes.
"""
import flume_tags as reference


def number(it, count):
    """A number in so many bytes. Of one that does not fit the low bytes are written."""
    return (it % 256**count).to_bytes(count, "big")


def name(form, it):
    return number(it[0], 2 * form) + number(it[1], 4)


def cap(form, it):
    return number(it[1] + 1, 1) + name(form, it[0])


def operation(form, it, words):
    """The bytes of an operation: its name, and its words as the registry's text has them."""
    kind, *rest = words
    front = number(form, 1) + number(reference.KINDS.index(kind) + 1, 1) + name(form, it)
    if kind == "tag":
        return front + number(reference.POLICIES.index(rest[0]) + 1, 1)
    if kind in ("put", "open"):
        front += name(form, reference.name(rest.pop(0)))
    if kind in ("put", "login"):
        front += cap(form, reference.cap(rest.pop(0)))
    return front + (bytes.fromhex(rest[0]) if kind == "login" else b"")


def operations(form, them, is_full=False):
    """A packet of operations, which are pairs of a name and words, in this order."""
    front = number(0xF0 + form, 1) + number(1 if is_full else 3, 1) + number(len(them), 1)
    return front + b"".join(operation(form, it, words) for it, words in them)


def window(form, first, last, spans):
    front = number(0xF0 + form, 1) + number(2, 1) + name(form, first) + name(form, last)
    told = (name(form, (node, low)) + number(high, 4) for node, low, high in spans)
    return front + number(len(spans), 2) + b"".join(told)


def end(form, pid, endpoint):
    node, boot, serial = pid
    parts = number(node, 2 * form), number(boot, 4), number(serial, 4), number(endpoint, 1)
    return b"".join(parts)


def message(form, sender, receiver, secrecy, integrity, caps, data):
    """A message. The sender and the receiver are a pid and an endpoint each; all lists rise."""
    front = number(0xF0 + form, 1) + number(4, 1) + end(form, *sender) + end(form, *receiver)
    for tags in (secrecy, integrity):
        front += number(len(tags), 2) + b"".join(name(form, it) for it in tags)
    front += number(len(caps), 1) + b"".join(cap(form, it) for it in caps)
    return front + number(len(data), 2) + data


def damaged(draw, content):
    """Bytes in which something was changed, cut off, put in, taken out or repeated, by chance."""
    content = bytearray(content)
    at = draw.randrange(len(content) + 1)
    size = draw.choice((1, 1, 1, 2, 4, 6, 8, 11))
    match draw.randrange(7):
        case 0 if content:
            content[at % len(content)] ^= 1 << draw.randrange(8)
        case 1 if content:
            content[at % len(content)] = draw.choice((0, 1, 2, 3, 4, 5, 64, 65, 255))
        case 2:
            del content[at:]
        case 3:
            del content[at:at + size]
        case 4:
            content[at:at] = draw.randbytes(size)
        case 5:
            content[at:at] = content[max(at - size, 0):at]
        case _:
            content[at:at + size] = bytes(size)
    return bytes(content)


def random_name(draw, nodes=(1, 2, 3)):
    """A name, mostly a small one of these nodes."""
    if draw.random() < 0.1:
        return draw.choice((1, 255, 256, 65535, 65536, 2**32 - 1)), draw.choice((1, 256, 2**32 - 1))
    return draw.choice(nodes), draw.randint(1, 9)


def random_cap(draw):
    return random_name(draw), draw.randrange(4)


def random_words(draw):
    """What an operation may be, as the registry's text has it."""
    group = reference.name_text(random_name(draw))
    right = reference.cap_text(random_cap(draw))
    kinds = ("tag", draw.choice(reference.POLICIES)), ("group",), ("put", group, right)
    return draw.choice([*kinds, ("login", right, draw.randbytes(32).hex()), ("open", group)])


def random_operations(draw, known=()):
    """A packet of operations, of which some are known ones."""
    form, them = draw.choice((1, 2)), {}
    for _ in range(draw.choice((1, 1, 2, 3, 5, 64))):
        if known and draw.random() < 0.6:
            it, words = draw.choice(known)
            them[it] = words if draw.random() < 0.8 else random_words(draw)
        else:
            them[random_name(draw)] = random_words(draw)
    return operations(form, sorted(them.items()), draw.random() < 0.3)


def random_window(draw, _known=()):
    """A window whose spans are as they should be."""
    first, last = sorted((random_name(draw), random_name(draw)))
    if draw.random() < 0.6:
        first, last = (1, 1), (2**32 - 1, 2**32 - 1)
    spans, at = [], first
    for _ in range(draw.choice((0, 1, 1, 2, 3, 8))):
        low = max(at[1] + draw.randrange(3), 1)
        high = low + draw.choice((0, 0, 1, 2, 5))
        if (at[0], high) <= last and high < 2**32 - 9:
            spans.append((at[0], low, high))
        at = (at[0], high + 2) if draw.random() < 0.7 else (at[0] + draw.choice((1, 1, 2)), 1)
    return window(draw.choice((1, 2)), first, last, spans)


def random_message(draw, _known=()):
    ends = []
    for _ in range(2):
        pid = random_name(draw)[0], draw.choice((1, 2, 2**32 - 1)), draw.choice((1, 7, 2**32 - 1))
        ends.append((pid, draw.choice((1, 2, 64))))
    secrecy, integrity = (sorted({random_name(draw) for _ in range(draw.choice((0, 0, 1, 3)))})
                          for _ in range(2))
    caps = sorted({random_cap(draw) for _ in range(draw.choice((0, 0, 1, 3, 9)))})
    data = draw.randbytes(draw.choice((0, 1, 2, 32, 1024)))
    return message(draw.choice((1, 2)), *ends, secrecy, integrity, caps, data)


def random_packet(draw, known=()):
    """The bytes of a packet of some kind."""
    kind = draw.choice((random_operations, random_operations, random_window, random_message))
    return kind(draw, known)
