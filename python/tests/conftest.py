"""Where there is no shared library, no test can run. These tests stand outside what is proved."""
import pytest

try:
    import clickpull  # noqa: F401
except ImportError as it:
    pytest.exit(str(it), 1)
