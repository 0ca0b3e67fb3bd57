"""Many things made at once, certificates that are kept, and the text of a table."""
import csv
import io
import os

from lib.calls import calls


class Work:
    """Makes many things at once by a pool, says how far it is, and counts what differs."""

    def __init__(self, pool):
        self.pool, self.differing = pool, 0

    def each(self, make, items):
        """What is made of each item, in their order."""
        for place, found in enumerate(self.pool.in_order(make, items), 1):
            if place % 100 == 0:
                calls.note(f"{place} of {len(items)}")
            yield found

    def differs(self, said):
        """Names a line that differs."""
        self.differing += 1
        calls.note(said)


def keep_certificate(asked, name, certificate):
    """Keeps a certificate in the folder that was asked for."""
    if asked.certificates and certificate is not None:
        os.makedirs(asked.certificates, exist_ok=True)
        certificate.save(os.path.join(asked.certificates, f"{name}.txt"))


def columns_text(columns, rows):
    """The text of a table."""
    out = io.StringIO(newline="")
    writer = csv.DictWriter(out, columns, lineterminator="\n")
    writer.writeheader()
    writer.writerows(rows)
    return out.getvalue()
