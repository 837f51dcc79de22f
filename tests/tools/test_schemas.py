"""The reader of schemas, and the library jsonschema where it is there: both take the documents of examples, and refuse damaged ones."""
import copy

import pytest
from conftest import EXAMPLES, TOP

from tools.checks.json_schemas import Schemas, parts, undetected
from tools.commands.json_documents import documents

FOLDER = TOP / "docs/schema"
REPORTS = [folder / "report.txt" for folder in EXAMPLES]


@pytest.fixture(scope="module")
def schemas():
    return Schemas(FOLDER)


@pytest.fixture(params=REPORTS, ids=lambda path: path.parent.name)
def document(request):
    return documents.document("play", request.param.read_bytes())


@pytest.fixture(scope="module")
def by_library(schemas):
    """Whether the library takes a document of `play`."""
    library = pytest.importorskip("jsonschema")
    return library.Draft202012Validator(schemas.read["play"], resolver=library.RefResolver("", "", {f"{name}.json": it for name, it in schemas.read.items()})).is_valid


def damaged(document):
    """Documents that have a part in the place of another one, of those near its top."""
    for key in list(document):
        for value in (None, "x", -1, [], {}):
            changed = copy.deepcopy(document)
            changed[key] = value
            yield key, changed
    for key in list(document):
        changed = copy.deepcopy(document)
        del changed[key]
        yield f"{key} missing", changed


def test_a_document_fits(schemas, document):
    assert schemas.fault("play", document) is None


def test_a_document_gives_its_text_again(request, document):
    path = TOP / "examples" / request.node.callspec.id / "report.txt"
    assert documents.text(document) == path.read_bytes()


def test_damages_are_seen(schemas):
    assert undetected(schemas, "play", documents.document("play", REPORTS[0].read_bytes())) == []


def test_parts_are_found():
    assert len(list(parts({"a": [1, {"b": 2}]}))) >= 3


def test_the_library_takes_it_too(by_library, document):
    assert by_library(document)


def test_both_refuse_the_same_damages(by_library, schemas):
    document = documents.document("play", REPORTS[0].read_bytes())
    for what, changed in damaged(document):
        assert (schemas.fault("play", changed) is None) == by_library(changed), what
