"""The origins of the leaves of the stored files, as OpenVDB's library has them; the reader of document.py must give the same."""
import readers
from calls import after_origins
from openvdb import described


def ask_grid(q, number, name, found, refused):
    """All of them, those before the end, none; then one more than there are, and slices of different lengths."""
    count = len(found)
    for asked, first, leaves in ((number, 0, count), (name, max(count - 2, 0), min(count, 2)), (name, count + 1, 0)):
        q.origins(asked, first, leaves, leaves, leaves, other=refused and refused + ' 1' or after_origins(found[first:first + leaves]))
    for asked, lengths in ((name, (count + 1,) * 3), (number, (count, count, count + 1))):
        q.origins(asked, 0, *lengths, other=(refused or ' refused 21') + ' 1')


def ask(q):
    for name in readers.FILES:
        file, grids = described(name)
        q.comment('== origins: %s, whose readers are told above' % name)
        q.load(name + '.vdb', readers.stored(name))
        origins = readers.origins(name)
        for number, grid in enumerate(grids):
            ask_grid(q, number, grid.name(), origins.get(number, []), grid.refused)
        q.origins(len(grids), 0, 1, 1, 1, other=(file.refused or ' refused 11') + ' 1')
