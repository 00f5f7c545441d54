"""Runs all tests on one private server."""

from __future__ import annotations

import json
import os
import shutil
import subprocess
import tempfile
from collections.abc import Callable
from pathlib import Path

import psycopg

from ..advice import AS_WRITTEN, MODELS, Adviser, Explained, Options, doubts, is_cheaper
from ..database import Database
from ..graphs import GRAPHS_MAX
from ..planner import plan_workload
from ..plans import Plan
from ..refusals import Refused
from ..server import private_server
from ..wording import text_of
from .schema import SCHEMA
from .statements import ACCEPTED, REFUSED

TOOLS = Path(__file__).resolve().parents[2]
ESTIMATES_WITHIN = 1.1
LIGHT, DARK, PHONE = "light", "dark", "phone"


class Tests:
    """Counts what is as expected, and prints what isn't."""

    def __init__(self, conninfo: str, folder: Path) -> None:
        self.conninfo, self.folder = conninfo, folder
        self.passed = self.failed = 0

    def case(self, name: str, test: Callable[[], str | None]) -> None:
        """One test: it gives nothing, or what is wrong."""
        try:
            wrong = test()
        except Exception as error:  # whatever goes wrong is a failed test
            wrong = f"{type(error).__name__}: {error}"
        self.passed += wrong is None
        self.failed += wrong is not None
        if wrong is not None:
            print(f"{name}: {wrong}")

    def tool(
        self, name: str, words: list[str], given: str, environment: dict[str, str] | None = None
    ) -> subprocess.CompletedProcess[str]:
        """The run of a tool."""
        env = {**os.environ, **(environment or {})}
        return subprocess.run([TOOLS / name, *words], input=given, capture_output=True, text=True, check=False, env=env)

    def advise(
        self, given: str, *words: str, conninfo: str | None = None, environment: dict[str, str] | None = None
    ) -> subprocess.CompletedProcess[str]:
        """The run of the adviser."""
        return self.tool("advise", [conninfo or self.conninfo, *words], given, environment)


def run(screenshots: str | None) -> int:
    """Runs all tests; the status for the shell."""
    folder = Path(tempfile.mkdtemp(prefix="dpe-tools-test-"))
    try:
        with private_server() as conninfo:
            with psycopg.connect(conninfo, autocommit=True) as connection:
                connection.execute(SCHEMA)
            tests = Tests(conninfo, folder)
            for part in (_accepted, _refused, _graphs, _advice, _faults, _rights, _other_tools, _pages):
                part(tests)
            if screenshots:
                _screenshots(tests, Path(screenshots))
    finally:
        shutil.rmtree(folder)
    print(f"tools/test: {tests.passed} as expected, {tests.failed} not")
    return 1 if tests.failed else 0


def _accepted(tests: Tests) -> None:
    with psycopg.connect(tests.conninfo) as connection, Database.connect(tests.conninfo) as database:
        for name, text in ACCEPTED.items():
            tests.case(name, lambda name=name, text=text: _same_rows(name, text, connection, database))


def _same_rows(name: str, text: str, connection: psycopg.Connection, database: Database) -> str | None:
    """Whether a statement gives the same rows in the default's order and in each order of dpe, and whether dpe and the
    server expect as many."""
    adviser = Adviser(text, database)
    rows = _rows(text, {}, connection)
    if not rows:
        return "no rows, so nothing is compared"
    for model in MODELS["best"]:
        order = adviser.best((model,))
        if _rows(order.sql, AS_WRITTEN, connection) != rows:
            return f"other rows by {model}: {order.sql}"
        theirs = order.explained.plan
        if theirs is None or theirs.aliases() != order.plan.aliases():
            return f"the server doesn't join all relations by {model}"
        if {join.aliases() for join in theirs.joins()} != {join.aliases() for join in order.plan.joins()}:
            return f"the server takes another order than {model}"
        if _is_costed_whole(name, adviser) and not _near(order.plan.rows, theirs.rows):
            return f"{order.plan.rows} rows by {model}, {theirs.rows} by PostgreSQL"
    return None


def _rows(text: str, settings: dict[str, str], connection: psycopg.Connection) -> list[tuple]:
    """The rows of a statement, in their order where the statement has one."""
    with connection.transaction(force_rollback=True):
        for name, value in settings.items():
            connection.execute(f"SET LOCAL {name} = {value}")
        rows = connection.execute(text).fetchall()
    return rows if "ORDER BY" in text else sorted(rows, key=repr)


def _is_costed_whole(name: str, adviser: Adviser) -> bool:
    """Whether both must expect as many rows. Where equalities follow, the server's own estimate of a set depends on the
    order in which it is joined, except that of a foreign key."""
    return not adviser.query.wide and (len(adviser.graphs.graphs) == 1 or "foreign key" in name)


def _near(own: int, theirs: int) -> bool:
    return own <= theirs * ESTIMATES_WITHIN + 1 and theirs <= own * ESTIMATES_WITHIN + 1


def _refused(tests: Tests) -> None:
    for text, line in REFUSED.items():
        tests.case(text or "no text", lambda text=text, line=line: _refusal(text, line, tests.conninfo))


def _refusal(text: str, line: str, conninfo: str) -> str | None:
    try:
        with Database.connect(conninfo) as database:
            Adviser(text, database)
    except Refused as refused:
        return None if str(refused) == line else f"refused with another line: {refused}"
    return "not refused"


def _graphs(tests: Tests) -> None:
    """How many join graphs there are: one for each spanning tree, of which a foreign key of two columns leaves few."""
    counts = {
        "equalities that follow": 3,
        "equalities over four": 16,
        "equalities over seven": 8,
        "a cycle of equalities": 3,
        "a class with a constant": 1,
        "a foreign key of two columns": 4,
        "a foreign key that follows": 4,
        "types that aren't carried over": 1,
        "text and varchar": 3,
        "nine relations": 4,
    }
    with Database.connect(tests.conninfo) as database:
        for name, count in counts.items():
            tests.case(f"graphs of {name}", lambda name=name, count=count: _count(Adviser(ACCEPTED[name], database), count))


def _count(adviser: Adviser, count: int) -> str | None:
    graphs = len(adviser.graphs.graphs)
    if graphs != count or graphs > GRAPHS_MAX:
        return f"{graphs} join graphs in place of {count}"
    said = any("as written and the stars" in note for note in adviser.notes())
    return None if said != adviser.graphs.all_trees else "what was tried isn't said"


NINE, SMALL = ACCEPTED["nine relations"], ACCEPTED["a comma list"]


def _advice(tests: Tests) -> None:
    def better() -> None:
        done = tests.advise(NINE)
        first = done.stdout.split("\n")[0]
        assert done.returncode == 0 and first.startswith("default ") and first.endswith(": better"), done
        assert "SET LOCAL join_collapse_limit = 1;" in done.stdout, done.stdout
        hint = next(line for line in done.stdout.split("\n") if line.startswith("/*+ Leading("))
        aliases = hint.removeprefix("/*+ Leading(").removesuffix(") */").replace("(", " ").replace(")", " ").split()
        assert sorted(aliases) == sorted("r n t c o l u p s".split()) and hint.count("(") == hint.count(")"), hint

    def kept() -> None:
        done = tests.advise(SMALL)
        first = done.stdout.split("\n")[0]
        assert done.returncode == 0 and first.endswith(": keep the default"), done
        assert "SELECT" not in done.stdout and "Leading" not in done.stdout, done.stdout

    def pasted() -> None:
        text = tests.advise(NINE).stdout
        statement = text[text.index("BEGIN;") : text.index("COMMIT;")]
        with psycopg.connect(tests.conninfo) as connection:
            settings, select = statement.removeprefix("BEGIN;\n").split(";\n", 1)
            connection.execute(settings)
            assert connection.execute(select).fetchall() == _rows(NINE, {}, connection)

    def analyzed() -> None:
        text = tests.advise(NINE, "--analyze").stdout
        assert "\nexecution: default " in text and "dpe  PostgreSQL  actual  rows of the join of" in text, text

    def workload() -> None:
        given = json.loads(tests.advise(NINE, "--workload").stdout)
        assert all("plan" in entry for entry in plan_workload(given, "ops")), given

    def guarded() -> None:
        assert is_cheaper(99, 100) and not is_cheaper(99.5, 100) and not is_cheaper(101, 100)

    def doubted() -> None:
        default, low, near = (Explained(1.0, 1.0, Plan("scan", rows, 1.0, "a")) for rows in (100, 49, 50))
        assert doubts(low, default) and not doubts(near, default) and not doubts(default, low)

    for case in (better, kept, pasted, doubted, analyzed, workload, guarded, lambda: _costlier(tests)):
        tests.case(f"advice {case.__name__}", case)


def _faults(tests: Tests) -> None:
    def read_only() -> None:
        done = tests.advise(SMALL.replace("c.id,", "nextval('counter'),"), "--analyze")
        line = "advise: the server says: cannot execute nextval() in a read-only transaction\n"
        assert done.returncode == 1 and done.stderr == line and not done.stdout, done

    def limited() -> None:
        text = tests.advise(NINE, "--full-search-seconds", "0.001").stdout
        assert "not planned within 0.001 s" in text, text

    def unreachable() -> None:
        done = tests.advise(NINE, conninfo="host=127.0.0.1 port=1")
        assert done.returncode == 1 and done.stderr.startswith("advise: no connection: "), done
        assert done.stderr.count("\n") == 1, done

    def no_text() -> None:
        done = subprocess.run([TOOLS / "advise", tests.conninfo], input=b"SELECT \xff", capture_output=True, check=False)
        assert done.returncode == 1 and done.stderr == b"advise: the statement isn't UTF-8\n", done

    def no_page() -> None:
        done = tests.advise(SMALL, "--html", "/nowhere/page.html")
        assert done.returncode == 1 and done.stderr.count("\n") == 1 and "/nowhere/page.html" in done.stderr, done

    def without_dpe() -> None:
        done = tests.advise(NINE, environment={"DPE": "/nowhere/dpe"})
        assert done.returncode == 1 and done.stderr == "advise: /nowhere/dpe: No such file or directory\n", done

    for case in (read_only, limited, unreachable, no_text, no_page, without_dpe):
        tests.case(f"faults {case.__name__}", case)


def _costlier(tests: Tests) -> None:
    """An order of dpe that the server finds dearer is never advised."""
    found = 0
    with Database.connect(tests.conninfo) as database:
        for text in ACCEPTED.values():
            advice = Adviser(text, database).advise(Options("cout"))
            if advice.order.explained.cost > advice.default.cost:
                found += 1
                said = text_of(advice)
                assert said.split("\n")[0].endswith(": keep the default") and "SELECT" not in said, said
    assert found > 0, "no order was dearer, so nothing is shown"


def _rights(tests: Tests) -> None:
    """The adviser needs no rights but those of the statement."""
    text = "SELECT o.day FROM orders o, customer c, city t WHERE o.customer_id = c.id AND c.city_id = t.id AND t.nation_id = 3"
    reader = tests.conninfo.split(" user=")[0] + " user=reader password=reader dbname=postgres"

    def enough() -> None:
        done = tests.advise(text, conninfo=reader)
        assert done.returncode == 0 and done.stdout.startswith("default "), done

    def too_few() -> None:
        done = tests.advise(text.replace("o.day", "o.note"), conninfo=reader)
        assert done.stderr == "advise: the server says: permission denied for table orders\n", done

    for case in (enough, too_few):
        tests.case(f"rights {case.__name__}", case)


def _other_tools(tests: Tests) -> None:
    def catalogue() -> None:
        done = tests.tool("catalogue", [tests.conninfo], "")
        tables = {table["name"]: table for table in json.loads(done.stdout)["tables"]}
        assert "visit_1" not in tables
        assert [tables[name]["rows"] for name in ("customer", "visit")] == [1500, 9000], tables
        columns = {column["name"]: column["distinct"] for column in tables["customer"]["columns"]}
        assert columns == {"id": 1500, "city_id": 200, "segment": 5, "credit": 1000, "boss_id": 150}, columns
        query = {"name": "q", "relations": [{"alias": name, "table": name} for name in ("customer", "orders")]}
        query["joins"] = [{"left": "customer", "right": "orders", "left_column": "id", "right_column": "customer_id"}]
        entry = plan_workload({"tables": list(tables.values()), "queries": [query]}, "ops")[0]
        assert entry["rows"] == 6000, entry

    def catalogue_of_a_schema() -> None:
        done = tests.tool("catalogue", [tests.conninfo, "other"], "")
        assert [table["name"] for table in json.loads(done.stdout)["tables"]] == ["orders"], done

    def catalogue_of_no_schema() -> None:
        done = tests.tool("catalogue", [tests.conninfo, "nothing"], "")
        assert done.returncode == 1 and done.stderr == "catalogue: no tables in the schema nothing\n", done

    def draw_a_hundred() -> None:
        workload = json.loads(tests.advise(ACCEPTED["nine relations"], "--workload").stdout)
        workload["queries"] = [dict(workload["queries"][0], name=f"query <{i}>") for i in range(100)]
        report = {"queries": plan_workload(workload, "ops")}
        file = tests.folder / "workload.json"
        file.write_text(json.dumps(workload))
        done = tests.tool("draw", ["--workload", str(file)], json.dumps(report))
        assert done.stdout.count("<svg") == 200 and "query &lt;99&gt;" in done.stdout, done.stderr
        assert "http" not in done.stdout.replace("http://www.w3.org/", ""), "the page names the network"

    def draw_a_refusal() -> None:
        done = tests.tool("draw", [], (TOOLS.parent / "examples" / "refused-json.report").read_text())
        assert done.returncode == 0 and "Refused: " in done.stdout, done

    def draw_no_report() -> None:
        done = tests.tool("draw", [], "[]")
        assert done.returncode == 1 and done.stderr == "draw: no JSON report of dpe, or no workload\n", done

    def draw_another_workload() -> None:
        examples = TOOLS.parent / "examples"
        report = (examples / "first-json.report").read_text()
        done = tests.tool("draw", ["--workload", str(examples / "tpch.json")], report)
        assert done.returncode == 1 and done.stderr == "draw: the workload has other queries than the report\n", done

    of_catalogue = (catalogue, catalogue_of_a_schema, catalogue_of_no_schema)
    for case in (*of_catalogue, draw_a_hundred, draw_a_refusal, draw_no_report, draw_another_workload):
        tests.case(case.__name__.replace("_", " "), case)


def _pages(tests: Tests) -> None:
    def page() -> None:
        file = tests.folder / "advice.html"
        tests.advise(ACCEPTED["nine relations"], "--analyze", "--html", str(file))
        text = file.read_text()
        assert text.count("<svg") == 3 and ": better</p>" in text and "<script" not in text, text[:300]
        if _browser():
            shown = _open(["--dump-dom"], file).stdout
            assert shown.count("<svg") == 3 and "PostgreSQL's default" in shown, shown[:300]

    tests.case("a page of an advice", page)


def _browser() -> str | None:
    return shutil.which("chromium")


def _open(words: list[str], file: Path) -> subprocess.CompletedProcess[str]:
    with tempfile.TemporaryDirectory(prefix="dpe-chromium-") as profile:
        fixed = ["--headless", "--no-sandbox", "--disable-gpu", "--hide-scrollbars", f"--user-data-dir={profile}"]
        command = [_browser(), *fixed, *words, f"file://{file}"]
        return subprocess.run(command, capture_output=True, text=True, check=False, timeout=120)


def _screenshots(tests: Tests, folder: Path) -> None:
    """Keeps pictures of the page in light, dark and at a phone's width."""
    if not _browser():
        print("no screenshots, since the package is missing: chromium")
        return
    folder.mkdir(parents=True, exist_ok=True)
    phone = tests.folder / "phone.html"
    phone.write_text('<body style="margin:0"><iframe src="advice.html" style="border:0;width:390px;height:2400px"></iframe>')
    for name, page, size, words in (
        (LIGHT, "advice.html", "1400,2400", []),
        (DARK, "advice.html", "1400,2400", ["--blink-settings=preferredColorScheme=0"]),
        (PHONE, "phone.html", "500,2400", []),
    ):
        picture = folder.resolve() / f"{name}.png"
        _open([f"--window-size={size}", f"--screenshot={picture}", *words], tests.folder / page)
        print(f"{picture}: to be looked at")
