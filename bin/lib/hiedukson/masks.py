"""Which bytes of a retag's layout are cells.

    freeze(layout)   for each byte of the mask: True for a freeze byte, False for a cell's
"""


def freeze(layout):
    """The mask of a layout that has one: the heads', then the tail's as often as a slice repeats it."""
    tail = layout.headers[-1]
    repeats = layout.metadata.count if tail.layout == "slice" else 1
    mask = []
    for head in layout.headers[:-1]:
        mask += _of_header(head)
    return mask + (_of_header(tail) * repeats if tail.size else [])


def _of_header(header):
    mask = [True] * header.size
    for cell in header.cells:
        mask[cell.offset : cell.end] = [False] * cell.size
    return mask
