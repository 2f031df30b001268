"""Lines of reports, as rows have them and as tests make them, and what a record file has of them."""
from harness import row_file

OPEN, LONGEST = 1, 8192


def lines_of(row, name):
    """The lines of a file of a row."""
    with open(row_file(row, name), "rb") as file:
        return file.read().splitlines()


def is_accepted(reply):
    """Whether the reply says that its line is in the record file."""
    return reply.startswith((b"OK ", b"SETTLED "))


def record_of(line):
    """The line as it stands in a record: without a mark."""
    kind, space, rest = line.partition(b" ")
    return kind.partition(b"@")[0] + space + rest


def tree(size):
    """The text of an event tree in normal form of so many bytes, whose values are at most 99,999."""
    pairs = 1
    while 16 * pairs - 5 < size:
        pairs *= 2
    spare = size - (12 * pairs - 5)
    if spare < 0:
        raise ValueError(f"no tree has {size} bytes")
    texts = [b"(0,0,%d)" % 10 ** min(4, max(0, spare - 4 * k)) for k in range(pairs)]
    while len(texts) > 1:
        texts = [b"(0,%s,%s)" % (texts[k], texts[k + 1]) for k in range(0, len(texts), 2)]
    return texts[0]


def report(number, size=None):
    """The checkpoint of this number of the root, as a line of so many bytes. Its events are greater than those of smaller numbers."""
    head, base = b"CHECK a %d 1;" % number, b"%d" % (1000000000 + 100000 * number)
    if size is None:
        return head + base
    return head + b"(" + base + tree(size - len(head) - len(base) + 1)[2:]


def records_in(data):
    """The lines of the records of a file up to its closed gate."""
    if data is None or len(data) <= 9:
        return []
    records, at = [], 8
    while data[at] == OPEN:
        length = int.from_bytes(data[at + 1:at + 3], "big")
        begin = at + 3 if length <= LONGEST else at + 7
        at = begin + (length if length <= LONGEST else length - 32768)
        records.append(data[begin:at])
    return records


def first_version(lines):
    """A record file of the first version with these lines."""
    return b"RECLINE1" + b"".join(b"\x01" + len(line).to_bytes(2, "big") + line for line in lines) + b"\x00"
