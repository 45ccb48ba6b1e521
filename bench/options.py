"""What the programs of this folder share: the words of their command lines, and the proved program."""
import argparse
import os

PROGRAM = os.path.join(os.path.dirname(os.path.abspath(__file__)), '..', 'crates', 'cxthread', 'out', 'cxthread')


def options(doc, runs, **others):
    """`--runs` and a word for each of the others, with what it stands for where it is left out."""
    parser = argparse.ArgumentParser(description=doc, formatter_class=argparse.RawDescriptionHelpFormatter)
    parser.add_argument('--runs', type=int, default=runs)
    for name, value in others.items():
        parser.add_argument(f'--{name}', default=value)
    return parser.parse_args()


def built(program):
    if not os.access(program, os.X_OK):
        raise SystemExit(f'{program}: not built yet; ./cxthread builds it')
    return program
