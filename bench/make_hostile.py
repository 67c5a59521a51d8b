"""Writes files that are made to cost opening or a walk as much as they can, by compare/cloud.py.

    make_hostile.py DIRECTORY
"""
import pathlib
import sys

sys.path.insert(0, str(pathlib.Path(__file__).resolve().parent.parent / 'compare'))
import cloud  # noqa: E402

SIZE = 10_000_000


def main(directory):
    for name, step, middle in ('ends', 32, False), ('middle', 4096, True):
        (pathlib.Path(directory) / f'{name}.vdb').write_bytes(cloud.crowded(SIZE // step * step - 4, step, middle))
    (pathlib.Path(directory) / 'metadata.vdb').write_bytes(cloud.shared(SIZE // 18))
    (pathlib.Path(directory) / 'empty.vdb').write_bytes(cloud.hollow(19))


if __name__ == '__main__':
    main(sys.argv[1])
