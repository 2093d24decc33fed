#!/usr/bin/env python3
"""make_page.py MODULE.wasm OUT.html: puts the parts of the page, and the module, into one file.

The content policy names the style and the script by their SHA-256, so that nothing else can run or style the page, and lets
nothing reach the network.
"""
import base64
import hashlib
import json
import os
import sys

PARTS = os.path.join(os.path.dirname(os.path.abspath(__file__)), "parts")


def part(name):
    with open(os.path.join(PARTS, name), encoding="utf-8") as file:
        return file.read()


def named(text):
    return "'sha256-%s'" % base64.b64encode(hashlib.sha256(text.encode()).digest()).decode()


def main(module, out):
    with open(module, "rb") as file:
        wasm = base64.b64encode(file.read()).decode()
    style = part("style.css")
    known = json.dumps({"record": part("known.record"), "report": part("known.report")})
    script = "\n".join(['"use strict";', "const WASM = %s;" % json.dumps(wasm), "const KNOWN = %s;" % known, "const WORKER = %s;" % json.dumps(part("worker.js")), part("words.js"), part("page.js")])
    assert "</" not in script and "</" not in style
    policy = "default-src 'none'; script-src %s 'wasm-unsafe-eval'; worker-src blob:; style-src %s; form-action 'none'; base-uri 'none'" % (named(script), named(style))
    page = part("page.html")
    for mark, text in (("@POLICY@", policy), ("@STYLE@", style), ("@SCRIPT@", script)):
        assert page.count(mark) == 1, mark
        page = page.replace(mark, text)
    with open(out, "w", encoding="utf-8", newline="\n") as file:
        file.write(page)


if __name__ == "__main__":
    main(*sys.argv[1:])
