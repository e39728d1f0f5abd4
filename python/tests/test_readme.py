"""The code that the module's README shows runs. It stands outside what is proved."""
import re
from pathlib import Path

import pytest

README = Path(__file__).resolve().parent.parent / "README.md"


def test_what_is_shown_runs(capsys: pytest.CaptureFixture[str]) -> None:
    names: dict[str, object] = {}
    for code in re.findall(r"```python\n(.*?)```", README.read_text(), re.DOTALL):
        exec(code, names)
    assert capsys.readouterr().out == "0 0 an alarm\n1 0 a report\na letter\n0 0 1500\na job\n"
