"""A page of many items, for measuring: a list of products, each with a name.

    python3 bench/page.py COUNT > page.html
"""

import sys

HEAD = '<!DOCTYPE html>\n<html vocab="http://schema.org/">\n<body typeof="ItemList">\n'
ITEM = (
    '<div property="itemListElement" typeof="Product">'
    '<span property="name">Item {}</span></div>\n'
)
TAIL = "</body>\n</html>\n"


def write(out, count):
    """Writes the page with so many items, one after another, so that little memory is taken."""
    out.write(HEAD)
    for number in range(count):
        out.write(ITEM.format(number))
    out.write(TAIL)


def triples(count):
    """How many triples the page of so many items gives: two of the list, three of each item."""
    return 2 + 3 * count


if __name__ == "__main__":
    write(sys.stdout, int(sys.argv[1]))
