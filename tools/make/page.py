#!/usr/bin/env python3
"""Writes csvtable.html, a page of one file that draws CSV in a browser, with no server and no network.

    tools/make/page.py MODULE.wasm OUT.html

tools/make/targets.py makes MODULE.wasm. The page's Content-Security-Policy has the digests of its scripts and of its style. So a
browser runs no other scripts, and doesn't let these send anything.
"""
import base64
import gzip
import hashlib
import re
import sys
from pathlib import Path

TOP = Path(__file__).resolve().parents[2]


def digest(text):
    return f"'sha256-{base64.b64encode(hashlib.sha256(text.encode()).digest()).decode()}'"


def parts_of(module):
    """The texts that replace the names in the template."""
    files = {"library": "library.js", "worker": "worker.js", "page": "page.js", "style": "page.css"}
    parts = {name: (TOP / "packages/browser" / file).read_text() for name, file in files.items()}
    parts["module"] = base64.b64encode(gzip.compress(module, 9, mtime=0)).decode()
    parts["sample"] = (TOP / "crates/csvtable/data/ledger.csv").read_text()
    parts["version"] = re.search(r"^Version: (.*)$", (TOP / "packages/c/comfy_table.pc").read_text(), re.MULTILINE)[1]
    scripts = f"script-src {digest(parts['library'])} {digest(parts['page'])} 'wasm-unsafe-eval'; worker-src blob:"
    others = f"style-src {digest(parts['style'])}; base-uri 'none'; form-action 'none'"
    parts["policy"] = f"default-src 'none'; {scripts}; {others}"
    return parts


def main():
    if len(sys.argv) != 3:
        sys.exit(__doc__)
    parts = parts_of(Path(sys.argv[1]).read_bytes())
    # In HTML, a script or a style ends at the first end tag in it.
    assert not any("</" in text for text in parts.values())
    template = (TOP / "packages/browser/page.html").read_text()
    Path(sys.argv[2]).write_text(re.sub(r"\{(\w+)\}", lambda found: parts[found[1]], template))


if __name__ == "__main__":
    main()
