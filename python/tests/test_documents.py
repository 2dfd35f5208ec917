"""Each block of Python in the documents runs, and prints what stands below it."""

import doctest
import re
from pathlib import Path

import pytest

TOP = Path(__file__).resolve().parents[2]
DOCUMENTS = ["docs/PYTHON.md", "python/README.md"]


@pytest.mark.parametrize("name", DOCUMENTS)
def test_blocks(name):
    pytest.importorskip("dask.dataframe")
    text = (TOP / name).read_text()
    blocks = list(re.finditer(r"(?ms)^```(python|pycon)\n(.*?)^```$", text))
    assert blocks
    names = {}
    for block in blocks:
        line = text.count("\n", 0, block.start()) + 1
        if block[1] == "python":
            exec(compile(block[2], f"{name}, line {line}", "exec"), names)
            continue
        test = doctest.DocTestParser().get_doctest(block[2], names, name, name, line)
        report = []
        doctest.DocTestRunner(optionflags=doctest.ELLIPSIS).run(
            test, out=report.append, clear_globs=False
        )
        assert not report, "".join(report)
        names.update(test.globs)
