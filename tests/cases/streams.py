"""Streams that are closed, full, slow or busy, readers that leave, few files, and no threads."""
from .inputs import GOOD, MIRRORED, SHIFTED, TREFOIL, UNKNOT, Case, jobs

ODD_STREAMS = ("closed input", "directory as input", "input that is only written", "busy input", "empty device as input", "endless input",
               "closed output", "full output", "output that is only read", "output full at once", "both closed", "all closed")


def name_of(words):
    """The words of a call as the beginning of a case's name."""
    return b" ".join(words).decode()


def loud():
    """Jobs with an answer that is longer than a pipe holds."""
    yield [b"colour"], b"x 0 1 2 3 4 5\no 1 0 3 2 5 4\nquandle trivial 16\nquandle dihedral 16\n"
    yield [b"close"], b"braid 4\nquandle trivial 16\n"
    yield [b"decide"], b"x 0 1 2 3 4 5 6 7\no 1 0 3 2 5 4 7 6\n" + UNKNOT + b"quandle trivial 16\n"


def short_calls(bases):
    """A call of each job, and some that end otherwise than with status 0."""
    return [*(([job], GOOD[job]) for job in jobs()), ([b"check"], SHIFTED + b"certificate 2\nequal 0\n"), ([b"colour"], b"x 0\n"),
            ([b"colour"], b"x 1000000000\n"), ([], UNKNOT), ([b"--help"], UNKNOT), ([b"decide", b"--spare=0"], bases[0][3])]


def odd_streams(words, data):
    """A call with each odd stream, and by pieces with pauses."""
    for way in ODD_STREAMS:
        yield Case("streams", f"{name_of(words)}: {way}", words, data, way=way)
    for piece, pause in ((1, 0.002), (3, 0.01), (7, 0.001)):
        yield Case("streams", f"{name_of(words)}: pieces of {piece}", words, data, way="slow input", need=(piece, pause))


def readers_that_leave(words, data):
    """A call whose reader takes some bytes and goes."""
    for taken in (0, 1, 2, 5, 100, 4096, 70_000):
        for is_ignored in (False, True):
            name = f"{name_of(words)}: a reader that takes {taken} bytes, SIGPIPE {'ignored' if is_ignored else 'as it is'}"
            yield Case("streams", name, words, data, way="reader that leaves", need=(taken, is_ignored))


def slow_texts():
    """Long texts that come slowly."""
    yield Case("streams", "decide: a slow long text", [b"decide"], SHIFTED + b"# a remark\n" * 60_000, way="slow input", need=(60_000, 0.05))
    yield Case("streams", "check: a slow long text", [b"check"], SHIFTED + b"# a remark\n" * 600_000 + b"equal 0\n", way="slow input", need=(65_536, 0.01))


def few_files(words, data):
    """A call that may have few files open, and one that may begin no thread."""
    # The loader itself needs a fourth one.
    for files in (4, 8, 16):
        yield Case("streams", f"{name_of(words)}: {files} files", words, data, way="few files", need=files)
    yield Case("streams", f"{name_of(words)}: no threads", words, data, way="no threads")


def workers_without_threads():
    """Searches by several workers that may begin no thread."""
    for workers in (2, 8, 64):
        given = [b"decide", b"--spare=3", b"--workers=%d" % workers]
        yield Case("streams", f"a search by {workers} workers: no threads", given, MIRRORED + TREFOIL, way="no threads")


def streams(bases):
    """All cases of this section."""
    short = short_calls(bases)
    every = [*short, *loud()]
    for call in short:
        yield from odd_streams(*call)
    for call in every:
        yield from readers_that_leave(*call)
    yield from slow_texts()
    for call in every:
        yield from few_files(*call)
    yield from workers_without_threads()
