"""The program that is tested, the servers and connections that a case asks for, and how a run goes over several processors."""

import contextlib
import functools
import os
import resource
import subprocess
from typing import Any, Callable, Iterator, List

import hypothesis
import pytest
from _pytest.runner import runtestprotocol

pytest.register_assert_rewrite("tests.lib.checks", "tests.lib.playing", "tests.lib.servers", "tests.lib.refusing")

from tests.lib.refusing import built  # noqa: E402
from tests.lib.servers import Server  # noqa: E402
from tests.lib.wire import Connection  # noqa: E402

TOP = os.path.dirname(os.path.dirname(os.path.abspath(__file__)))
BUILT = os.environ.get("TABD") or os.path.join(TOP, "crates", "tabd", "out", "tabd")
FAILED = pytest.StashKey[bool]()


def pytest_addoption(parser: pytest.Parser) -> None:
    parser.addoption("--tabd", metavar="PATH", default=BUILT, help="the program to test (default: $TABD, or crates/tabd/out/tabd)")
    parser.addoption("--rounds", type=int, default=4, help="so many rounds of test_history.py, of four seconds each (default: 4)")
    parser.addoption("--seeds", type=int, default=20, help="so many seeds of test_interleavings.py (default: 20)")
    parser.addoption("--seed", type=int, default=1, help="the seed of the first round; each that follows has the next (default: 1)")
    parser.addoption("--examples", type=int, help="so many new examples of each property (default: 40, the same in each run)")
    parser.addoption("--wrong", action="store_true", help="also that each wrong server and program is found, in some minutes")
    parser.addoption("--gate", action="store_true", help="a case that cannot run on this program or this machine fails")


def pytest_configure(config: pytest.Config) -> None:
    count = config.getoption("--examples")
    quiet = list(hypothesis.HealthCheck)
    hypothesis.settings.register_profile(
        "tabd", max_examples=count or 40, derandomize=not count, deadline=None, database=None, suppress_health_check=quiet
    )
    hypothesis.settings.load_profile("tabd")
    program = os.path.abspath(config.getoption("--tabd"))
    if not config.getoption("collectonly") and not os.access(program, os.X_OK):
        raise pytest.UsageError(f"no program at {program}: build it (README.md, \"Run and test\"), or give another: pytest tests --tabd PATH")


@pytest.hookimpl(tryfirst=True)
def pytest_cmdline_main(config: pytest.Config) -> None:
    """A run of everything takes all processors, unless it says otherwise; one that names cases takes this process. A worker of xdist has the
    same arguments and no number of processes, and must not start workers of its own."""
    option = config.option
    if hasattr(config, "workerinput"):
        return
    chosen = option.keyword or option.markexpr or getattr(option, "lf", False) or option.collectonly
    is_whole = not chosen and all(os.path.isdir(it) for it in config.args)
    if is_whole and getattr(option, "numprocesses", 0) is None and not option.usepdb and option.capture != "no":
        option.numprocesses, option.dist = "auto", "loadgroup"


@pytest.hookimpl(tryfirst=True)
def pytest_collection_modifyitems(config: pytest.Config, items: List[pytest.Item]) -> None:
    """Those that measure come first, in one group: with xdist one process runs them, one after another."""
    if not config.getoption("--wrong"):
        left_out = [item for item in items if item.get_closest_marker("wrong")]
        config.hook.pytest_deselected(items=left_out)
        items[:] = [item for item in items if item not in left_out]
    items.sort(key=lambda item: item.get_closest_marker("serial") is None)
    for item in items:
        if item.get_closest_marker("serial"):
            item.add_marker(pytest.mark.xdist_group("serial"))


def pytest_generate_tests(metafunc: pytest.Metafunc) -> None:
    """The cases of a seed: so many as the option that their module names."""
    if "seed" in metafunc.fixturenames:
        first = metafunc.config.getoption("--seed")
        metafunc.parametrize("seed", range(first, first + metafunc.config.getoption(metafunc.module.SEEDS)))


def pytest_runtest_protocol(item: pytest.Item, nextitem: Any) -> Any:
    """A case that has several tries passes if one of them does."""
    marker = item.get_closest_marker("tries")
    if not marker:
        return None
    item.ihook.pytest_runtest_logstart(nodeid=item.nodeid, location=item.location)
    for left in reversed(range(marker.args[0])):
        reports = runtestprotocol(item, nextitem=nextitem, log=False)
        if not left or not any(report.failed for report in reports):
            break
        item._initrequest()  # type: ignore[attr-defined]
    for report in reports:
        item.ihook.pytest_runtest_logreport(report=report)
    item.ihook.pytest_runtest_logfinish(nodeid=item.nodeid, location=item.location)
    return True


@pytest.hookimpl(hookwrapper=True)
def pytest_runtest_makereport(item: pytest.Item, call: Any) -> Iterator[None]:
    outcome = yield
    report = outcome.get_result()  # type: ignore[attr-defined]
    if report.when == "call":
        item.stash[FAILED] = not report.passed
    if report.skipped and item.config.getoption("--gate") and not item.get_closest_marker("undecided"):
        report.outcome = "failed"


@pytest.fixture(scope="session")
def tabd(request: pytest.FixtureRequest) -> str:
    return os.path.abspath(str(request.config.getoption("--tabd")))


@pytest.fixture(scope="session")
def sanitizer(tabd: str) -> bool:
    """Whether the program was built with a sanitizer: it maps more addresses than any limit leaves, and keeps what is freed."""
    limit = lambda: resource.setrlimit(resource.RLIMIT_AS, (2**30, 2**30))
    return subprocess.run([tabd, "--version"], capture_output=True, preexec_fn=limit, check=False).returncode != 0


@pytest.fixture(scope="session")
def library(tmp_path_factory: pytest.TempPathFactory) -> Callable[[str], str]:
    """Builds the library of a source in tests/lib, once."""
    return functools.cache(lambda name: built(name, str(tmp_path_factory.mktemp(name))))


@pytest.fixture
def plain(sanitizer: bool) -> None:
    """For a case that limits or measures the program's memory."""
    if sanitizer:
        pytest.skip("the program was built with a sanitizer, which takes memory of its own")


@pytest.fixture
def passed(request: pytest.FixtureRequest) -> Callable[[], bool]:
    """Whether the case has passed, for checks after it."""
    return lambda: not request.node.stash.get(FAILED, True)


@pytest.fixture
def serve(tabd: str) -> Iterator[Callable[..., Server]]:
    """Starts servers with any options, and kills them after the case."""
    with contextlib.ExitStack() as stack:
        yield lambda *words, **options: stack.enter_context(Server(tabd, *words, **options))


@pytest.fixture
def clients(serve: Callable[..., Server], passed: Callable[[], bool], request: pytest.FixtureRequest) -> Iterator[List[Connection]]:
    """The connections of the mark `served`. After a case that passes they are closed, and the server has to end by itself."""
    mark = request.node.get_closest_marker("served")
    count, *words = mark.args
    server = serve("--connections", str(count), *words)
    yield [server.connect(small=mark.kwargs.get("small", False) and number == 0) for number in range(count)]
    if passed():
        server.ends()
