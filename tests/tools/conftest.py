"""What the tests of the tools share: the folder of the repository, and its examples."""
from pathlib import Path

import pytest

TOP = Path(__file__).resolve().parents[2]
EXAMPLES = sorted(path.parent for path in (TOP / "examples").glob("*/report.txt"))


@pytest.fixture
def top():
    return TOP


@pytest.fixture(params=EXAMPLES, ids=lambda folder: folder.name)
def example(request):
    """Each example with a policy, a script and the report of its play."""
    return request.param
