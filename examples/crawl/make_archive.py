"""Makes a web archive of pages: of products (bench/page.py), or of files that lie below folders.

    python3 make_archive.py ARCHIVE COUNT
    python3 make_archive.py ARCHIVE ROOT ..

Of twenty made pages sixteen have some 2,000 bytes, three 20,000 and one 200,000. A file is a record where its name ends
with .html or .xhtml. Records are compressed one by one, as crawlers write them.
"""

import base64
import gzip
import hashlib
import io
import os
import sys
import urllib.parse
import uuid

HERE = os.path.dirname(os.path.abspath(__file__))
sys.path.insert(0, os.path.join(HERE, "..", "..", "bench"))

import page  # noqa: E402

TYPES = {".html": "text/html", ".xhtml": "application/xhtml+xml"}


def record(address, media_type, body):
    """The record of a response."""
    block = f"HTTP/1.1 200 OK\r\nContent-Type: {media_type}\r\nContent-Length: {len(body)}\r\n\r\n".encode() + body
    headers = {
        "WARC-Type": "response",
        "WARC-Record-ID": f"<urn:uuid:{uuid.uuid5(uuid.NAMESPACE_URL, address)}>",
        "WARC-Date": "2026-01-01T00:00:00Z",
        "WARC-Target-URI": address,
        "WARC-Block-Digest": f"sha1:{base64.b32encode(hashlib.sha1(block).digest()).decode()}",
        "Content-Type": "application/http;msgtype=response",
        "Content-Length": str(len(block)),
    }
    told = "".join(f"{name}: {value}\r\n" for name, value in headers.items())
    return f"WARC/1.1\r\n{told}\r\n".encode() + block + b"\r\n\r\n"


def made(count):
    """The records of made pages."""
    for number in range(count):
        items = 215 if number % 20 in (3, 9, 15) else 2150 if number % 20 == 19 else 21
        text = io.StringIO()
        page.write(text, items + number % 7)
        yield record(f"http://shop{number % 50}.example/{number}", "text/html", text.getvalue().encode())


def found(roots):
    """The records of files below the folders."""
    for root in roots:
        for place, folders, names in os.walk(root):
            folders.sort()
            for name in sorted(names):
                path = os.path.join(place, name)
                media_type = TYPES.get(os.path.splitext(name)[1])
                if media_type and os.path.isfile(path):
                    with open(path, "rb") as file:
                        yield record(f"http://found.example/{urllib.parse.quote(os.path.relpath(path, root))}", media_type, file.read())


def main():
    """Makes the archive."""
    archive, *words = sys.argv[1:]
    records = made(int(words[0])) if len(words) == 1 and words[0].isdigit() else found(words)
    with open(archive, "wb") as file:
        for each in records:
            file.write(gzip.compress(each, 6))


if __name__ == "__main__":
    main()
