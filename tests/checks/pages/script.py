"""What a page runs: its script, and the policy that lets the browser run nothing else."""

import base64
import hashlib
import re
import subprocess

from walks import TOP

# the script of every page: a file, the source that it is made into, its constant, and what stands before it in the page
SCRIPTS = (
    ("page.js", "script.rt", "SCRIPT", "<script>\n",
     "The element of the script begins here, and goes on in `SHOW`; `FOOT` ends it."),
    ("show.js", "show.rt", "SHOW", "", "What stands behind `SCRIPT` in the same element."),
)


def is_made(write):
    """Whether src/ has the script of page.js and show.js, and its hash; all are written there if that is asked for."""
    folder = f"{TOP}/crates/rvmc_page"
    made, text = {}, "\n"
    for name, source, constant, before, comment in SCRIPTS:
        with open(f"{folder}/{name}", encoding="utf-8") as file:
            part = file.read()
        text += part
        escaped = (before + part).replace("\\", "\\\\").replace('"', '\\"')
        made[f"{folder}/src/{source}"] = (
            f"//! The script of every page, as {name} has it: `tests/checks/page --write` makes this file of that.\n\n"
            f'/// {comment}\npub(crate) const {constant}: &str = "\\\n{escaped}";\n'
        )
    digest = base64.b64encode(hashlib.sha256(text.encode()).digest()).decode()
    with open(f"{folder}/src/frame.rt", encoding="utf-8") as file:
        made[f"{folder}/src/frame.rt"] = re.sub("'sha256-[^']*'", f"'sha256-{digest}'", file.read())
    same = True
    for path, source in made.items():
        if write:
            with open(path, "w", encoding="utf-8") as file:
                file.write(source)
        with open(path, encoding="utf-8") as file:
            same = same and file.read() == source
    return same


def policy_fault(program):
    """What is wrong with the policy of a page, or None: the browser has to fetch nothing at all, take styles from the
    page alone, and run only the script with this hash (W3C, Content Security Policy 3). It stands before all that it
    governs."""
    with open(f"{TOP}/examples/hi.s", "rb") as source:
        record = subprocess.run([program, "one", "--source", "--record"], stdin=source, capture_output=True, check=True)
    page = subprocess.run([program, "page"], input=record.stdout, capture_output=True, check=True).stdout
    script = re.search(rb"<script>(.*?)</script>", page, re.DOTALL)[1]
    digest = base64.b64encode(hashlib.sha256(script).digest()).decode()
    expected = f"default-src 'none'; style-src 'unsafe-inline'; script-src 'sha256-{digest}'"
    found = re.findall(rb"<meta http-equiv=Content-Security-Policy content=\"([^\"]*)\">", page)
    told = [re.sub(r"\s+", " ", one.decode()) for one in found]
    if told != [expected]:
        return f"the policy is {told}, not {expected}"
    before = page[: page.index(b"<meta http-equiv=Content-Security-Policy")]
    if re.search(rb"<(?!!doctype html>|html lang=en>|meta (charset|name)=)", before):
        return "something stands before the policy"
    return None
