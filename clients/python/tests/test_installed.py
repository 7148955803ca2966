"""The wheel, installed into an environment of its own, and Debian's package, unpacked and, in CI, installed: both used outside the repository."""

from __future__ import annotations

import os
import subprocess
import sys
import venv
from importlib.util import find_spec
from pathlib import Path

import pytest

from conftest import TOP

NEEDED = ("pip", "setuptools", "wheel", "lxml", "rich", "prompt_toolkit")
pytestmark = pytest.mark.skipif(not all(map(find_spec, NEEDED)), reason=f"one of {', '.join(NEEDED)} is not installed")

LETTER = "<letter><p>No storm was seen</p></letter>"
STORM = 'collection()//p[. contains text "storm"]'


@pytest.fixture(scope="module")
def packed(tmp_path_factory: pytest.TempPathFactory) -> Path:
    """A folder with the wheel and Debian's package."""
    top = tmp_path_factory.mktemp("packed")
    ran = subprocess.run([TOP / "clients" / "python" / "package", "--to", top], capture_output=True, text=True, timeout=300)
    assert ran.returncode == 0, ran.stdout + ran.stderr
    assert sorted(Path(it).suffix for it in ran.stdout.split()) == [".deb", ".whl"]
    return top


@pytest.fixture(scope="module")
def installed(packed: Path) -> Path:
    """The folder of the commands of an environment that has the wheel, and Debian's packages beside it."""
    pip = [sys.executable, "-m", "pip", "--disable-pip-version-check", "--no-input"]
    venv.create(packed / "env", system_site_packages=True, symlinks=True)
    (wheel,) = packed.glob("*.whl")
    install = [*pip, "--python", packed / "env" / "bin" / "python", "install", "--no-deps", "--no-index", wheel]
    subprocess.run(install, check=True, capture_output=True, cwd=packed, timeout=300)
    return packed / "env" / "bin"


def run(installed: Path, folder: Path, *words: object, **variables: object) -> subprocess.CompletedProcess[str]:
    """Runs a command of the environment in a folder outside the repository, without what the caller's environment says of programs."""
    kept = {name: value for name, value in os.environ.items() if name not in ("FTQ", "PYTHONPATH")}
    environment = {**kept, "PATH": "/usr/bin:/bin", **{name: str(value) for name, value in variables.items()}}
    first, *further = map(str, words)
    return subprocess.run([str(installed / first), *further], cwd=folder, env=environment, capture_output=True, text=True, timeout=120)


def test_the_commands_of_the_wheel(installed: Path, program: Path, tmp_path: Path) -> None:
    (tmp_path / "letter.xml").write_text(LETTER)
    ran = run(installed, tmp_path, "ftq-ask", "letter.xml", "--query", STORM, "--format", "paths", "--program", program)
    assert (ran.returncode, ran.stdout, ran.stderr) == (0, 'doc("letter.xml")/letter[1]/p[1]\n', "")
    assert run(installed, tmp_path, "ftq-pack", "letter.xml").stdout == f"session 2\n# letter.xml\nload {len(LETTER)} letter.xml\n{LETTER}\n"
    (tmp_path / "titles.xml").write_text("<p>Dr. Hill ran</p>")
    hill = 'collection()/p[. contains text "dr" ftand "hill" same sentence]'
    asked = ["ftq-ask", "titles.xml", "--query", hill, "--count", "--program", program]
    assert [run(installed, tmp_path, *asked, *more).stdout for more in ([], ["--abbreviations", "de"])] == ["0\n", "1\n"]
    assert run(installed, tmp_path, "ftq-ask").returncode == 2
    code = "import ftq_client; from importlib.metadata import version; print(ftq_client.__version__ == version('ftq-client'))"
    assert run(installed, tmp_path, "python", "-c", code).stdout == "True\n"


def test_where_the_installed_client_finds_the_program(installed: Path, program: Path, tmp_path: Path) -> None:
    code = "from ftq_client import Session\nwith Session() as it: it.load('d', b'<a>x</a>'); print(it.program, it.query('collection()/a')[0].line)"
    named = run(installed, tmp_path, "python", "-c", code, FTQ=program)
    assert (named.returncode, named.stdout) == (0, f'{program} doc("d")/a[1]\n'), named.stderr
    (tmp_path / "bin").mkdir()
    (tmp_path / "bin" / "ftq").symlink_to(program)
    found = run(installed, tmp_path, "python", "-c", code, PATH=f"{tmp_path}/bin:/usr/bin:/bin")
    assert found.stdout == f'{tmp_path}/bin/ftq doc("d")/a[1]\n', found.stderr
    missing = run(installed, tmp_path, "ftq-ask", "letter.xml")
    assert (missing.returncode, missing.stdout) == (2, "")
    assert missing.stderr.startswith("ask: the program ftq isn't found") and "FTQ" in missing.stderr


def test_what_is_missing_is_named_with_the_line_that_installs_it(installed: Path, tmp_path: Path) -> None:
    code = "import sys; sys.modules['rich'] = None; sys.argv[0] = 'ftq-ask'; from ftq_ask.needs import ask; sys.exit(ask())"
    ran = run(installed, tmp_path, "python", "-c", code)
    assert ran.returncode == 2 and "pip install ftq-client[ask]" in ran.stderr


ASKS = "from ftq_client import Session\nwith Session() as it: it.load('d', b'<a>x</a>'); print(it.query('collection()/a')[0].line)"


def test_the_package_holds_what_the_wheel_holds_and_runs_unpacked(packed: Path, program: Path, tmp_path: Path) -> None:
    (deb,) = packed.glob("*.deb")
    top = tmp_path / "root"
    subprocess.run(["dpkg-deb", "-x", deb, top], check=True)
    fields = subprocess.run(["dpkg-deb", "-f", deb, "Package", "Depends"], check=True, capture_output=True, text=True).stdout
    assert fields == "Package: python3-ftq\nDepends: python3 (>= 3.11)\n"
    (tmp_path / "letter.xml").write_text(LETTER)
    packages = top / "usr/lib/python3/dist-packages"
    environment = {"PATH": "/usr/bin:/bin", "PYTHONPATH": str(packages), "FTQ": str(program), "LC_ALL": "C.UTF-8"}
    words = [str(top / "usr/bin/ftq-ask"), "letter.xml", "--query", STORM, "--format", "paths"]
    ran = subprocess.run(words, cwd=tmp_path, env=environment, capture_output=True, text=True, timeout=120)
    assert (ran.returncode, ran.stdout, ran.stderr) == (0, 'doc("letter.xml")/letter[1]/p[1]\n', "")
    source = TOP / "clients" / "python" / "src"
    files = [it.relative_to(source) for package in ("ftq_client", "ftq_ask") for it in (source / package).rglob("*") if it.is_file() and "__pycache__" not in it.parts]
    assert files and [it for it in files if not (packages / it).is_file()] == []


@pytest.mark.skipif(os.environ.get("CI") != "true" or os.geteuid() != 0, reason="a package is installed and taken away in CI alone, as root")
def test_the_package_is_installed_and_taken_away(packed: Path, program: Path, tmp_path: Path) -> None:
    (deb,) = packed.glob("*.deb")
    environment = {"PATH": "/usr/sbin:/usr/bin:/sbin:/bin", "FTQ": str(program), "LC_ALL": "C.UTF-8"}
    quiet = {"cwd": tmp_path, "env": environment, "capture_output": True, "text": True, "timeout": 300}
    try:
        ran = subprocess.run(["dpkg", "-i", deb], **quiet)
        assert ran.returncode == 0, ran.stderr
        assert subprocess.run(["/usr/bin/python3", "-c", ASKS], **quiet).stdout == 'doc("d")/a[1]\n'
        (tmp_path / "letter.xml").write_text(LETTER)
        assert subprocess.run(["ftq-ask", "letter.xml", "--query", STORM, "--count"], **quiet).stdout == "1\n"
    finally:
        subprocess.run(["dpkg", "-P", "python3-ftq"], **quiet)
    assert subprocess.run(["/usr/bin/python3", "-c", ASKS], **quiet).returncode == 1
