"""Folders that are written whole or not at all."""
import os

import pytest

from tools.commands.command_line import written


def fill(place, text):
    with written.folder(place) as made:
        (made / "file").write_text(text)
        assert not place.exists() or (place / "file").read_text() != text


def test_a_folder_takes_the_place_of_another(tmp_path):
    place = tmp_path / "above" / "folder"
    fill(place, "first")
    (place / "more").touch()
    fill(place, "second")
    assert os.listdir(place.parent) == ["folder"]
    assert os.listdir(place) == ["file"] and (place / "file").read_text() == "second"


def test_an_interrupt_leaves_the_old_folder_alone(tmp_path):
    place = tmp_path / "folder"
    fill(place, "first")
    with pytest.raises(KeyboardInterrupt):
        with written.folder(place) as made:
            (made / "half").touch()
            raise KeyboardInterrupt
    assert os.listdir(tmp_path) == ["folder"] and os.listdir(place) == ["file"]


def test_a_folder_that_cant_be_made_is_told(tmp_path):
    (tmp_path / "file").touch()
    with pytest.raises(OSError):
        fill(tmp_path / "file" / "folder", "first")
