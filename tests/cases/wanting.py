"""Limits of the system: calls that want much, in little memory, with small stacks, and with small files; and `seek` under these."""
from .inputs import GOOD, MIRRORED, SHIFTED, TABLE, TREFOIL, UNKNOT, Case, jobs
from .streams import loud, name_of

KIBIBYTE, PAGE = 1024, 4096
MEGABYTES = (8, 9, 10, 12, 14, 16, 20, 24, 28, 32, 40, 48, 56, 64, 80, 96, 112, 128, 160, 192, 256, 384, 512)
# Of less than this many kilobytes of stack a call may end by a signal; the separate checker works in its first thread.
ENOUGH, ENOUGH_FOR_CHECK = 64, 384
EMPTY_TABLE = b"certificate 4\nblocks 0\n"


def search_by(workers):
    """The words of a search by so many workers, and its input."""
    return [b"decide", b"--spare=3", b"--workers=%d" % workers], MIRRORED + TREFOIL


def searches():
    """Searches that want much, by one worker and by several."""
    yield "a search", [b"decide", b"--spare=3"], MIRRORED + TREFOIL
    yield "a large search", [b"decide", b"--budget=500000"], SHIFTED
    for workers in (2, 8, 33, 64):
        yield (f"a search by {workers} workers", *search_by(workers))
    yield "a large search that separates", [b"decide", b"--budget=500000"], TREFOIL + UNKNOT


def long_checks():
    """Long inputs of `check`, and numbers of what isn't there."""
    yield "a long remark", [b"check"], SHIFTED + b"equal 0\n" + b"#" * 20_000_000
    yield "many moves", [b"check"], SHIFTED + b"equal 300001\n" + b"shift rows 1\n" * 300_001
    yield "more moves than there are", [b"check"], SHIFTED + b"equal 999999999\n"
    yield "a table", [b"check"], TABLE
    one_class = EMPTY_TABLE + b"classes 1\n" + UNKNOT + b"seeds 0\nopen 0\n"
    yield "a table of many rows", [b"check"], one_class + b"rows 30000\n" + (UNKNOT + b"class 0\nmoves 0\n") * 30_000
    yield "more rows than there are", [b"check"], one_class + b"rows 999999999\n"
    yield "more classes than there are", [b"check"], EMPTY_TABLE + b"classes 999999999\n" + UNKNOT
    yield "bytes over the limit", [b"check"], b"\n" * 34_000_000


def wanting():
    """Calls that want much, or little: the name of the call, words and input."""
    yield from ((job.decode(), [job], GOOD[job]) for job in jobs())
    yield "usage", [], b""
    yield from searches()
    yield from ((f"loud {number}", *call) for number, call in enumerate(loud()))
    yield from long_checks()
    yield "long answer", [b"colour"], b"x 0 1 2 3 4 5 6 7\no 1 0 3 2 5 4 7 6\n" + b"quandle trivial 16\n" * 20


# Memory

def memory():
    """Each such call in some address spaces, and short ones near the least in steps of pages."""
    for name, words, data in wanting():
        for size in MEGABYTES:
            yield Case("memory", f"{name}: {size} MB", words, data, way="memory", need=size * 1_000_000)
        for pages in range(0, 1200, 40) if len(data) < 1000 else ():
            yield Case("memory", f"{name}: 2 MB and {pages} pages", words, data, way="memory", need=2_000_000 + PAGE * pages)
    yield from windows()


def windows():
    """Every address space from 3 to 64 MB: near each further stack of a thread the first thread's can't grow."""
    for workers in (1, 2, 8, 64):
        for size in range(3 * 1024, 64 * 1024 + 1, 64):
            yield Case("memory", f"a search by {workers} workers: {size} KB", *search_by(workers), way="memory", need=size * KIBIBYTE)
    for size in range(3 * 1024, 8 * 1024 + 1, 8):
        yield Case("memory", f"a check: {size} KB", [b"check"], SHIFTED + b"equal 0\n", way="memory", need=size * KIBIBYTE)


# Stacks

def in_stack(name, words, data, size):
    """A call with so many kilobytes of stack for its first thread. The call and each worker run in threads whose stacks have stated sizes, but the
    separate checker works in its first thread."""
    enough = ENOUGH_FOR_CHECK if words[:1] == [b"check"] else ENOUGH
    return Case("stack", f"{name}: {size} KB", words, data, way="stack" if size >= enough else "tiny stack", need=size * KIBIBYTE)


def stack():
    """Each call that wants much with some stacks, and searches and a check with every one from 64 KB to 4 MB."""
    for name, words, data in wanting():
        for size in (4, 16, 64, 128, 256, 384, 512, 640, 768, 1024, 2048, 4096, 8192):
            yield in_stack(name, words, data, size)
    for size in range(64, 4 * 1024 + 1, 64):
        for workers in (1, 2, 8, 64):
            yield in_stack(f"each stack, {workers} workers", *search_by(workers), size)
        yield in_stack("each stack, a check", [b"check"], SHIFTED + b"equal 0\n", size)


# The seeker

# Words of `seek`, by which it finds something or nothing, two diagrams, which are on its standard input, and the step between sizes in KB. OUT
# is a file that is there.
SOUGHT = {
    "equal": ([b"--no-weights"], b"braid 3 1 2 1 2 1 2\nbraid 3 2 1 2 1 2 1 1 -1\n", 64),
    "equal, to a file": ([b"--no-weights", b"--out", b"OUT"], b"braid 3 1 2 1 2 1 2\nbraid 3 2 1 2 1 2 1 1 -1\n", 512),
    "different": ([], TREFOIL + UNKNOT, 512),
    "nothing": ([b"--no-weights", b"--steps", b"2000"], TREFOIL + MIRRORED, 512),
}


def seek_within(call, words, data, step):
    """A call of the seeker in address spaces from 3 to 64 MB, and with stacks of its first thread up to 4 MB."""
    for size in range(3 * 1024, 64 * 1024 + 1, step):
        yield Case("seek", f"{call}: {size} KB", words, data, way="memory", need=size * KIBIBYTE)
    for size in (16, *range(64, 4 * 1024 + 1, step)):
        yield Case("seek", f"{call}: a stack of {size} KB", words, data, way="stack" if size >= ENOUGH else "tiny stack", need=size * KIBIBYTE)


def seek():
    """The seeker, by one worker and by several."""
    for name, (words, data, step) in SOUGHT.items():
        for workers in (1, 2, 8, 64):
            yield from seek_within(f"{name}, {workers} workers", [*words, b"--workers", b"%d" % workers], data, step)


# Files

def file_size():
    """Calls whose output is a file that may have so many bytes."""
    for words, data in [*(([job], GOOD[job]) for job in jobs()), ([], b""), *loud()]:
        for size in (0, 1, 2, 8, 9, 50, 1000, 4096, 100_000, 10_000_000):
            for is_ignored in (True, False):
                name = f"{name_of(words)}: files of {size} bytes, SIGXFSZ {'ignored' if is_ignored else 'as it is'}"
                yield Case("file size", name, words, data, way="file size", need=(size, is_ignored))
