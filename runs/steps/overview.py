"""What `status` tells of campaigns: their lines, and the page of HTML."""

import datetime
import hashlib
import html.parser
import time

from closing import closes, opened
from common import wants

DIGEST = hashlib.sha256(b"image").hexdigest()
HEADINGS = ["campaign", "meter", "ended", "reason"]


def told(place, *words):
    """What `status` prints of the book of a folder."""
    status, out, said = place.run("status", "--book", place.folder / "head.book", *words)
    wants((status, said) == (0, []), f"status {words} ends with {status} and says {said}")
    return out


def closed(place):
    """A book of 300 meters in two campaigns: three rows of the first were given up, and the second was cancelled."""
    opened(place, 300)
    closes(place, "give-up", "--meter", "1-3")
    closes(place, "cancel", "--campaign", "2")


def is_recent(text):
    """Whether this is a time of the last day, as RFC 3339 writes it."""
    at = datetime.datetime.strptime(text, "%Y-%m-%dT%H:%M:%SZ").replace(tzinfo=datetime.timezone.utc)
    return time.time() - 86400 < at.timestamp() <= time.time()


# To be seen: a campaign that lacks, counts of the whole book, a digest of the name, a time of another zone.
def campaigns_are_told(place):
    """Each campaign has four lines: what it offers, its digest, when it was opened, and how many of its rows are in which state."""
    closed(place)
    lines = told(place, "--campaigns").splitlines()
    times = [line.removeprefix("  opened ") for line in lines[2::4]]
    wants(len(times) == 2 and all(map(is_recent, times)), f"status prints {lines}")
    wants([line for line in lines if not line.startswith("  opened ")] == [
        "campaign 7 1 release 2 size 5", f"  digest {DIGEST}", "  live 253 done 0 failed 3 cancelled 0",
        "campaign 7 2 release 2 size 5", f"  digest {DIGEST}", "  live 0 done 0 failed 0 cancelled 44"], f"status prints {lines}")


class Page(html.parser.HTMLParser):
    """What stands on a page: its headings, the parts of its bars, its tables, and what it would load."""

    def __init__(self, text):
        super().__init__()
        self.texts, self.bars, self.tables, self.loads = [], [], [], []
        self.feed(text)
        self.close()

    def handle_starttag(self, tag, attrs):
        given = dict(attrs)
        self.loads += [tag for name in ("src", "href", "data") if name in given] + [tag for it in ("script", "link", "img") if it == tag]
        if tag == "div":
            self.bars.append({})
        elif tag == "i" and "style" in given:
            self.bars[-1][given["class"]] = int(given["style"].removeprefix("flex:"))
        elif tag == "table":
            self.tables.append([])
        elif tag == "tr":
            self.tables[-1].append([])
        elif tag in ("td", "th"):
            self.tables[-1][-1].append("")

    def handle_data(self, data):
        text = data.strip()
        if self.tables and self.tables[-1] and self.lasttag in ("td", "th"):
            self.tables[-1][-1][-1] += text
        elif text and self.lasttag != "style":
            self.texts.append(text)


# To be seen: a bar of another campaign, a failed row in another table, a row that lacks, a reason that isn't shown, anything from outside.
def a_book_has_a_page(place):
    """A page has a bar for each campaign and a table for each state, and with --campaigns the bars alone. It needs nothing from outside."""
    closed(place)
    page = Page(told(place, "--report", "html"))
    bars = [{"done": 0, "live": 253, "failed": 3, "cancelled": 0}, {"done": 0, "live": 0, "failed": 0, "cancelled": 44}]
    wants(page.bars == bars and page.loads == [], f"the page has the bars {page.bars} and loads {page.loads}")
    wants([text for text in page.texts if text.startswith("Campaign ")] == ["Campaign 7 1", "Campaign 7 2"], f"the page says {page.texts}")
    wants(page.texts.count(DIGEST) == 2 and "release 2, 5 bytes" in page.texts[page.texts.index("Campaign 7 1") + 1], f"the page says {page.texts}")
    failed, live, done, cancelled = page.tables
    wants(all(table[0] == HEADINGS for table in page.tables), f"the tables begin with {[table[0] for table in page.tables]}")
    wants([(row[0], row[1], row[3]) for row in failed[1:]] == [("7 1", str(number), "size given-up") for number in (1, 2, 3)], f"failed are {failed}")
    wants(all(is_recent(row[2]) for row in failed[1:]), f"failed are {failed}")
    wants(live[1:] == [["7 1", str(number), "", ""] for number in range(4, 257)], f"live are {live}")
    wants(done[1:] == [], f"done are {done}")
    wants([row[:2] for row in cancelled[1:]] == [["7 2", str(number)] for number in range(257, 301)], f"cancelled are {cancelled}")
    page = Page(told(place, "--report", "html", "--campaigns"))
    wants((page.bars, page.tables, page.loads) == (bars, [], []), f"with --campaigns the page has {page.bars} and {page.tables}")


STEPS = [campaigns_are_told, a_book_has_a_page]
