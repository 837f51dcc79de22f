"""Puts a page together from its parts: one file that needs nothing else."""
from __future__ import annotations

import base64
import hashlib
import html
import json
import os
from typing import Any, Dict, Tuple

FOLDER = os.path.dirname(os.path.realpath(__file__))
PICTURE_SCRIPTS = ("scheme.js", "model.js", "marks.js", "details.js", "picture.js", "exploration.js", "views.js")
PICTURE_STYLES = ("picture.css", "exploration.css")


def part(name: str) -> str:
    with open(f"{FOLDER}/{name}", encoding="utf-8") as file:
        return file.read()


def joined(names: Tuple[str, ...]) -> str:
    return "\n".join(part(name) for name in names)


def as_json(value: Dict[str, Any]) -> str:
    """JSON that can stand in a script's element: no text of it ends the element or begins a comment."""
    return json.dumps(value, separators=(",", ":")).replace("<", "\\u003c").replace(">", "\\u003e").replace("&", "\\u0026")


def filled(template: str, values: Dict[str, str]) -> str:
    """The template with each mark replaced once, so that a text that is put in is never looked through."""
    pieces = template.split("@@")
    return "".join(values[piece] if at % 2 else piece for at, piece in enumerate(pieces))


def digest(text: str) -> str:
    return f"'sha256-{base64.b64encode(hashlib.sha256(text.encode()).digest()).decode()}'"


def picture_page(view: Dict[str, Any], title: str) -> str:
    """The page of a picture of an output. Its policy lets only its own script and style count, and nothing be fetched."""
    script, style = joined((*PICTURE_SCRIPTS, "alone.js")), joined(PICTURE_STYLES)
    policy = f"default-src 'none'; script-src {digest(script)}; style-src {digest(style)}; base-uri 'none'; form-action 'none'"
    return filled(part("picture.html"), {
        "POLICY": policy, "TITLE": html.escape(title), "STYLE": style, "PARTS": part("parts.html"), "VIEW": as_json(view), "SCRIPT": script,
    })
