"""Pages of certificates: one HTML file each, which needs no other and is opened in any browser. tools/show.py is the command.

reading  what a page shows, of a text
writing  the file of it, with page.css and page.js

Each move is made and each listed colouring is tried here, but only `knot check` rules on a certificate.
"""
from typing import Optional, Union

from .. import certificates
from ..certificates import Certificate
from ..faults import BadText, Fault, NoJob
from .reading import Choices, read_page
from .writing import page_text, title_of

__all__ = ("page",)


def page(of: Union[Certificate, str], title: Optional[str] = None, *, quandle: Optional[str] = None, plain: bool = False,
         frames: Optional[str] = None, no_shifts: bool = False, check: bool = False) -> str:
    """A page of a certificate, or of another text that tools/show.py takes, as the text of an HTML file.

    `title`      the page's title
    `quandle`    the name of the quandle whose colours are carried along moves; `plain` leaves colours out
    `frames`     only these frames, counted from 0: as "0,5,9" or "3..7" or "0,10,.."; `no_shifts` leaves out those after shifts
    `check`      has `knot check` rule on it first, and the page says so

    Raises BadText where it can't be shown, NoJob where `frames` names none or `check` can't be asked, and with `check` Rejected.
    """
    text = of.text if isinstance(of, Certificate) else of
    if not isinstance(text, str):
        raise BadText(f"{text!r:.40} is neither a certificate nor the text of one")
    try:
        shown = read_page(text, Choices(quandle, plain, frames, no_shifts))
    except Fault:
        raise
    except ValueError:
        raise NoJob(f"frames {frames} names no places") from None
    if check and shown.kind in ("weights", "moves"):
        raise NoJob("check is for certificates 'equal' and 'different'")
    if check:
        certificates.check(text)
    if shown.kind in ("equal", "moves") and not shown.frames:
        raise NoJob(f"frames {frames} names none of the frames")
    return page_text(shown, title or title_of(shown), check, text)
