"""Keeps the figures of the bench as data files in bench/out, and draws the pictures of docs/pictures from them with
gnuplot."""

import os
import subprocess

from servers import ROOT

DATA, PICTURES = f"{ROOT}/bench/out", f"{ROOT}/docs/pictures"

# The program that draws, with its package.
PACKAGES = {"gnuplot": "gnuplot-nox"}


def table(title, columns, rows):
    """Returns a table of a data file: its title, the names of its columns, and its rows. A value that was not measured
    is `nan`."""
    words = [["nan" if it is None else str(it) for it in row] for row in rows]
    return "\n".join([f"# {title}", " ".join(f'"{it}"' for it in columns), *(" ".join(it) for it in words)])


def keep(name, tables):
    """Writes the data file of a picture. There are two empty lines between its tables."""
    os.makedirs(DATA, exist_ok=True)
    with open(f"{DATA}/{name}.dat", "w", encoding="utf-8") as file:
        file.write("\n\n\n".join(tables) + "\n")


def draw(name):
    """Draws a picture from its data file with bench/NAME.gnuplot, and returns true if that succeeded."""
    os.makedirs(PICTURES, exist_ok=True)
    names = f"data='{DATA}/{name}.dat'; picture='{PICTURES}/{name}.svg'"
    return subprocess.run(["gnuplot", "-e", names, f"{ROOT}/bench/{name}.gnuplot"]).returncode == 0
