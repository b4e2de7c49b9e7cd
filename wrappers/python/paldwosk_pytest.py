"""A plugin of pytest: with --paldwosk-traces it replays each trace that a test leaves.

During a test the environment variable PHASER_TRACE names a file in a folder of the test's own.
There the programs that the test starts write, if they have a drop-in of Paldwosk. After the test
each file of the folder is replayed. If one isn't explained the test fails with the refusal, and
the file stays.

A module of its own, so that pytest starts without the shared library as long as nobody asks for
this.
"""
from __future__ import annotations

import pathlib
import tempfile
from types import ModuleType
from typing import Any, Generator, Set

import pytest

_COUNT = "paldwosk_traces"  # the property of a test that says how many of its traces were replayed


def pytest_addoption(parser: pytest.Parser) -> None:
    parser.getgroup("paldwosk").addoption(
        "--paldwosk-traces", action="store_true",
        help="replay the traces that each test leaves beside the file PHASER_TRACE, and fail it if "
             "one isn't explained")


def pytest_configure(config: pytest.Config) -> None:
    if config.getoption("--paldwosk-traces"):
        try:
            import paldwosk
        except ImportError as error:
            raise pytest.UsageError("--paldwosk-traces: %s" % error) from None
        config.pluginmanager.register(_Replays(paldwosk), "paldwosk-replays")


class _Replays:
    """What is done for each test, one after the other."""

    def __init__(self, paldwosk: ModuleType) -> None:
        self._paldwosk = paldwosk
        self._folder = pathlib.Path()  # of the test that runs
        self._refused: Set[pathlib.Path] = set()  # the files there that are told already
        self._count = 0

    @pytest.hookimpl(hookwrapper=True)
    def pytest_runtest_protocol(self, item: pytest.Item) -> Generator[None, None, None]:
        self._folder = pathlib.Path(tempfile.mkdtemp(prefix="paldwosk-traces-"))
        self._refused = set()
        with pytest.MonkeyPatch.context() as patch:
            patch.setenv("PHASER_TRACE", str(self._folder / "trace.json"))
            yield
        if not any(self._folder.iterdir()):
            self._folder.rmdir()

    @pytest.hookimpl(trylast=True)
    def pytest_runtest_call(self, item: pytest.Item) -> None:
        self._replay_all(item)

    @pytest.hookimpl(trylast=True)
    def pytest_runtest_teardown(self, item: pytest.Item) -> None:
        self._replay_all(item)  # of a test that failed, and of programs that fixtures ended

    def _replay_all(self, item: pytest.Item) -> None:
        """Replays what the test has left so far. What is explained is taken away; else the test
        fails."""
        files = sorted(it for it in self._folder.iterdir()
                       if it.is_file() and it not in self._refused)
        item.user_properties.append((_COUNT, len(files)))
        lines = []
        for file in files:
            try:
                self._paldwosk.replay(file.read_bytes())
                file.unlink()
            except self._paldwosk.Refusal as refusal:
                self._refused.add(file)
                lines.append("a trace of this test isn't explained: %s: %s" % (refusal, file))
        if lines:
            pytest.fail("\n".join(lines), pytrace=False)

    def pytest_runtest_logreport(self, report: pytest.TestReport) -> None:
        if report.when == "teardown":
            self._count += sum(int(str(number)) for name, number in report.user_properties
                               if name == _COUNT)

    def pytest_terminal_summary(self, terminalreporter: Any) -> None:
        terminalreporter.write_line("paldwosk: traces replayed: %d" % self._count)
