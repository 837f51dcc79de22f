"""The folder of the checkout, or of a package."""
from pathlib import Path

from tools.commands.command_line import place

TOP = Path(place.HOME)
