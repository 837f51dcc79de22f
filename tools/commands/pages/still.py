"""A still picture of a report, as SVG: for documents and for what can't run a script. Its marks are those of marks.js."""
from __future__ import annotations

import html
import os
import re
from typing import Any, Dict, Optional, Tuple

from tools.commands.pages.reports import NotAReport

ROW, TOP, LANE, NUMBERS = 22, 30, 76, 34
# how wide a letter of words is, by its kind; a text is drawn as wide as these make it, whatever the font is
NARROW, WIDE, CAPITAL, LETTER = 3.6, 9.6, 7.6, 6.3
SIZE = 5.6
CONSTANT = re.compile(r'^const ([A-Z_]+) = (?:\["([^"]*)", "heavy"\]|"([^"]*)");$', re.M)
SHAPE = re.compile(r'^  "?([a-z-]+)"?: \[(?:([A-Z_]+)|"([^"]*)"), "(fill|line|open|heavy)"(?:, "([^"]*)")?\],$', re.M)
COLOURS = {"task": "#1f6fb2", "worker": "#8a4fb0", "listener": "#666"}
STYLE = """
text { font: 12px system-ui, sans-serif; fill: #1c1e21; dominant-baseline: central }
.head { font-weight: 600; text-anchor: middle } .number { text-anchor: end; fill: #777 } .actor { font-weight: 600 }
.tag text { font-size: 11px; font-weight: 600 } .broken text { fill: #fff }
""".strip().replace("\n", " ")
# the colours of a tag: its border and what it is filled with
TAGS = {"broken": ("#b3261e", "#b3261e"), "rests": ("#b06000", "#fff4e0"), "bad": ("#b3261e", "#fdecea"), "good": ("#1b7f3b", "#e8f5ec"), "odd": ("#7a5c00", "#fff8dc"), "plain": ("#bbb", "#f4f4f4")}


def shapes() -> Tuple[Dict[str, Tuple[str, ...]], str]:
    """The marks of steps: a path in a square from -1 to 1, its form, and a path inside it."""
    with open(f"{os.path.dirname(os.path.realpath(__file__))}/marks.js", encoding="utf-8") as file:
        text = file.read()
    constants = {name: first or second for name, first, second in CONSTANT.findall(text)}
    found = {step: (constants[name] if name else path, form, inner) for step, name, path, form, inner in SHAPE.findall(text)}
    return {**found, "death": (constants["DEATH"], "heavy", "")}, constants["CROSS"]


def width_of(text: str) -> float:
    return sum(NARROW if letter in "ilj.,:;'|! ()[]t" else WIDE if letter in "mwMW" else CAPITAL if letter.isupper() else LETTER for letter in text)


def fitted(text: str) -> str:
    """The attributes of a text that is drawn as wide as it was taken to be."""
    return f'textLength="{width_of(text):.0f}" lengthAdjust="spacingAndGlyphs"'


class Still:
    def __init__(self, scene):
        self.scene = scene
        self.shapes, self.cross = shapes()
        self.columns = sorted({column for *_, column in scene["lanes"]})
        self.left = NUMBERS + LANE * len(self.columns)
        self.tags = {}
        for place, kind, text, _ in scene["tags"]:
            self.tags.setdefault(place, []).append((kind, text))
        self.width = self.left + 20 + max(self.room(place) for place in range(len(scene["lane"])))
        self.height = TOP + ROW * len(scene["lane"]) + 6

    def x(self, lane: int) -> float:
        return NUMBERS + LANE * (self.columns.index(self.scene["lanes"][lane][-1]) + 0.5)

    @staticmethod
    def y(place: int) -> float:
        return TOP + ROW * (place + 0.5)

    def name(self, lane: int) -> str:
        name, kind, *_ = self.scene["lanes"][lane]
        return "listener" if kind == "listener" else f"{kind} {name[1:]}"

    def words(self, place: int) -> str:
        return f"{self.name(self.scene['lane'][place])} {self.scene['words'][place]}"

    def room(self, place: int) -> float:
        """How much room the words and the tags of a row take."""
        return width_of(self.words(place)) + sum(width_of(text) + 24 for _, text in self.tags.get(place, ()))

    def drawn(self) -> str:
        rows = range(len(self.scene["lane"]))
        parts = [self.band(place) for place in rows] + [self.lane(number) for number in range(len(self.scene["lanes"]))]
        parts += [self.arrow(*arrow) for arrow in self.scene["arrows"]] + [self.row(place) for place in rows]
        size = f'width="{self.width:.0f}" height="{self.height}"'
        return f'<svg xmlns="http://www.w3.org/2000/svg" {size} viewBox="0 0 {self.width:.0f} {self.height}">\n<style>{STYLE}</style>\n' \
            f'<rect width="100%" height="100%" fill="#fff"/>\n' + "".join(f"{part}\n" for part in parts if part) + "</svg>\n"

    def band(self, place: int) -> Optional[str]:
        """The ground of a row that is broken, or that this rests on."""
        kinds = {kind for kind, _ in self.tags.get(place, ())}
        colour = "#fdecea" if "broken" in kinds else "#fff4e0" if "rests" in kinds else None
        return colour and f'<rect x="0" y="{TOP + ROW * place}" width="100%" height="{ROW}" fill="{colour}"/>'

    def lane(self, number: int) -> str:
        name, kind, first, last, ended, *_ = self.scene["lanes"][number]
        x, colour = self.x(number), COLOURS[kind]
        begin, end = (self.y(first), self.y(last)) if kind == "task" else (TOP, self.height - 6)
        solid = end if ended is None else self.y(ended)
        title = f'<text class="head" x="{x:.0f}" y="15">{self.name(number)}</text>' if begin <= self.y(0) or kind != "task" or self.is_first(number) else ""
        held = f'<path d="M{x:.0f} {solid:.0f}V{end:.0f}" stroke="{colour}" stroke-dasharray="1 4"/>' if solid < end else ""
        return f'{title}<path d="M{x:.0f} {begin:.0f}V{solid:.0f}" stroke="{colour}" opacity=".55"/>{held}'

    def is_first(self, number: int) -> bool:
        """Whether a lane is the first of its column."""
        return all(lane[-1] != self.scene["lanes"][number][-1] for lane in self.scene["lanes"][:number])

    def arrow(self, kind: str, place: int, source: int, target: int, lost: int) -> str:
        x1, x2, y = self.x(source), self.x(target), self.y(place)
        way = 1 if x2 > x1 else -1
        begin, end = x1 + way * SIZE * 1.2, x2 - way * SIZE * 1.2
        colour, dashes = ("#b3261e", ' stroke-dasharray="4 3"') if lost else ("#7a5c00", ' stroke-dasharray="2 2"') if kind == "other" else ("#555", "")
        if lost:
            end = begin + (end - begin) * 0.62
            tip = f'<path d="{self.cross}" stroke="{colour}" stroke-width=".3" transform="translate({end:.1f} {y:.0f}) scale({SIZE * 1.3:.1f})"/>'
        else:
            tip = f'<path d="M{end:.1f} {y:.0f}l{-way * 6} -3.6v7.2Z" fill="{colour}"/>'
        return f'<path d="M{begin:.1f} {y:.0f}H{end:.1f}" stroke="{colour}"{dashes}/>{tip}'

    def mark(self, place: int) -> str:
        lane, step, bad = self.scene["lane"][place], self.scene["step"][place], self.scene["bad"][place]
        colour = COLOURS[self.scene["lanes"][lane][1]]
        path, form, inner = self.shapes["death" if bad and step == "deliver" else step]
        is_hollow = form == "line" or (bad and form == "fill")
        fill = "none" if form in ("open", "heavy") else "#fff" if is_hollow else colour
        inside = self.cross if bad and form in ("fill", "line") else inner
        more = f'<path d="{inside}" fill="none" stroke="{colour}" stroke-width=".28"/>' if inside else ""
        return f'<g transform="translate({self.x(lane):.0f} {self.y(place):.0f}) scale({SIZE})"><path d="{path}" fill="{fill}" stroke="{colour}" stroke-width=".28"/>{more}</g>'

    def row(self, place):
        y, lane = self.y(place), self.scene["lane"][place]
        x = self.left + 10
        told = html.escape(self.scene["words"][place], quote=False)
        kind = self.scene["lanes"][lane][1]
        parts = [f'<text class="number" x="{NUMBERS - 8}" y="{y:.0f}">{place}</text>', self.mark(place),
                 f'<text x="{x:.0f}" y="{y:.0f}" {fitted(self.words(place))}><tspan class="actor" style="fill:{COLOURS[kind]}">{self.name(lane)}</tspan> {told}</text>']
        x += width_of(self.words(place)) + 8
        for tag, text in self.tags.get(place, ()):
            border, fill = TAGS[tag]
            wide = width_of(text) + 14
            parts.append(f'<g class="tag {tag}"><rect x="{x:.0f}" y="{y - 8:.0f}" width="{wide:.0f}" height="16" rx="4" fill="{fill}" stroke="{border}"/>'
                         f'<text x="{x + 7:.0f}" y="{y:.0f}" {fitted(text)}>{html.escape(text, quote=False)}</text></g>')
            x += wide + 8
        return "".join(parts)


def still_picture(view: Dict[str, Any]) -> str:
    if view["kind"] not in ("report", "handover"):
        raise NotAReport(1, "there are still pictures of reports alone")
    return Still(view["scene"]).drawn()
