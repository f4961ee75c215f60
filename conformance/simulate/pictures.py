#!/usr/bin/env python3
"""Makes the page of each case with tools/trace.py, and looks for each of its lines there; and whether the pictures of docs/ are as it makes them.

Where a headless browser is installed (Debian's `chromium-headless-shell` or `chromium`), it opens the pages, and what it shows is looked at.
Usage: pictures.py [WORD]      WORD: only cases whose name has it
"""
import pathlib
import re
import shutil
import subprocess
import sys
import tempfile

HERE = pathlib.Path(__file__).resolve().parent
ROOT = HERE.parent.parent
# How many pages a browser opens: each takes it seconds.
MOST_OPENED = 3
BROWSERS = ("chromium-headless-shell", "chromium")


def made(case, *options):
    """Returns what tools/trace.py makes of a case."""
    words = [sys.executable, "-B", ROOT / "tools" / "trace.py", *options, HERE / "cases" / f"{case}.simulate", HERE / "cases" / f"{case}.expect"]
    ran = subprocess.run(words, capture_output=True, text=True, stdin=subprocess.DEVNULL)
    return ran.stdout if ran.returncode == 0 else ran.stderr


def lines_of(case):
    """Returns the numbers of the lines of a case that are not empty."""
    text = (HERE / "cases" / f"{case}.simulate").read_text(encoding="utf-8", errors="replace")
    return [str(number) for number, line in enumerate(text.splitlines(), 1) if line]


def shown(page):
    """Returns the numbers of the lines that a page shows as steps, in its order; some steps share a row."""
    rows = re.findall(r'<title>line [^<]*', page)
    return [number for row in rows for number in re.findall(r"(?m)^(?:<title>)?line (\d+): ", row)]


def opened(browser, page):
    """Returns a page as a browser has it once its script has run."""
    with tempfile.TemporaryDirectory() as room:
        file = pathlib.Path(room, "page.html")
        file.write_text(page, encoding="utf-8")
        words = [browser, "--headless", "--no-sandbox", "--disable-gpu", f"--user-data-dir={room}/profile", "--dump-dom", file.as_uri()]
        return subprocess.run(words, capture_output=True, text=True, timeout=60, stdin=subprocess.DEVNULL).stdout


def main():
    word = sys.argv[1] if len(sys.argv) > 1 else ""
    cases = sorted(path.stem for path in (HERE / "cases").glob("*.simulate") if word in path.stem)
    pages, failed = {case: made(case) for case in cases}, []
    failed += [case for case in cases if shown(pages[case]) != lines_of(case)]
    browser = next(filter(None, map(shutil.which, BROWSERS)), None)
    print(f"a browser opens the {MOST_OPENED} longest pages" if browser else f"{' and '.join(BROWSERS)} are not installed: no page was opened")
    for case in sorted(cases, key=lambda it: -len(lines_of(it)))[: MOST_OPENED if browser else 0]:
        failed += [] if shown(opened(browser, pages[case])) == lines_of(case) else [f"{case} in the browser"]
    drawn = sorted((ROOT / "docs" / "pictures").glob("*.svg"))
    failed += [f"docs/pictures/{it.name} is another" for it in drawn if made(it.stem, "--svg") != it.read_text(encoding="utf-8")]
    for name in failed:
        print(f"FAILED {name}")
    print(f"{len(cases) + len(drawn) - len(failed)} passed, {len(failed)} failed")
    sys.exit(1 if failed or not cases else 0)


if __name__ == "__main__":
    main()
