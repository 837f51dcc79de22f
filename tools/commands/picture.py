"""Makes a picture of what the program printed: one HTML file that needs nothing else. `./broker help picture` has its words."""
from __future__ import annotations

import os
import sys
from argparse import Namespace
from typing import Any, Dict

from tools.commands.command_line import written
from tools.commands.command_line.arguments import Parser
from tools.commands.command_line.ending import reason
from tools.commands.pages.documents import picture_page
from tools.commands.pages.judged import NotJudged
from tools.commands.pages.reports import LIMIT, NotAReport
from tools.commands.pages.still import still_picture
from tools.commands.pages.views import TITLES, judged_view, view_of

# a pod prints a report of at most LIMIT bytes for each of up to eight containers
MOST = 8 * LIMIT


def arguments() -> Namespace:
    parser = Parser("picture")
    parser.add_argument("report", nargs="?", default="-", help="the file of a report, or of what handover, pod or explore printed; - is standard input")
    parser.add_argument("--judged", metavar="FILE", help="the output of judge or reference-judge on this report's history, which is drawn too")
    parser.add_argument("-o", "--output", metavar="FILE.html", help="the file that is written")
    parser.add_argument("--still", action="store_true", help="a still picture, as SVG, of a report")
    parser.add_argument("--title", help="the page's title; without it the report's place")
    return parser.parse_args()


def bytes_of(path: str) -> bytes:
    if path == "-":
        return sys.stdin.buffer.read(MOST + 1)
    with open(path, "rb") as file:
        return file.read(MOST + 1)


def title_of(path: str, view: Dict[str, Any]) -> str:
    """The file's name, and that of its folder, which tells more."""
    whole = os.path.abspath(path)
    return TITLES[view["kind"]] if path == "-" else "/".join(whole.split("/")[-2:])


def main() -> int:
    asked = arguments()
    try:
        data = bytes_of(asked.report)
        view = judged_view(data, bytes_of(asked.judged)) if asked.judged else view_of(data)
        page = still_picture(view) if asked.still else picture_page(view, asked.title or title_of(asked.report, view))
        if asked.output:
            written.write(asked.output, page.encode())
        else:
            sys.stdout.buffer.write(page.encode())
    except NotAReport as fault:
        print(f"picture: {asked.judged if isinstance(fault, NotJudged) else asked.report}: {fault}", file=sys.stderr)
        return 1
    except OSError as fault:
        print(f"picture: {fault.filename}: {reason(fault)}", file=sys.stderr)
        return 2
    return 0
