"""What the program answers of one page: its status, its text, and where the page is refused the fault."""

import re
import subprocess

FAULT = re.compile(r"refused: (\w+) at byte (\d+) in token (\d+)")


class Answer:
    """The answer to some words. Of a page that is refused, `kind` is the fault's, `byte` and `token` its places."""

    def __init__(self, words):
        done = subprocess.run(words, stdin=subprocess.DEVNULL, capture_output=True, check=False)
        self.status, self.text = done.returncode, done.stdout
        fault = FAULT.fullmatch(done.stderr.decode("utf-8", "replace").strip())
        self.kind = fault.group(1) if fault else None
        self.byte, self.token = (int(fault.group(2)), int(fault.group(3))) if fault else (None, None)

    def is_refusal(self):
        return self.status == 1 and self.kind is not None
