"""The table of words, and what is suggested for a word that isn't one."""
import pytest

from tools.commands.command_line import table


@pytest.mark.parametrize("one, other, steps", [("play", "play", 0), ("play", "paly", 1), ("play", "plya", 1), ("play", "pla", 1), ("play", "plays", 1), ("", "play", 4), ("judge", "fudge", 1)])
def test_distance(one, other, steps):
    assert table.distance(one, other) == table.distance(other, one) == steps


@pytest.mark.parametrize("word, found", [("paly", "play"), ("PLAY", "play"), ("expl", "explain"), ("nosuch", None), ("", None), ("explor", "explore")])
def test_near(word, found):
    assert table.near(word, ["play", "explain", "explore", "run"]) == found


def test_every_word_has_its_own_entry():
    known = table.read()
    names = [it["word"] for it in known["words"]]
    assert len(set(names)) == len(names)
    assert all(table.entry(known, name)["word"] == name for name in names)
