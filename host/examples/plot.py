#!/usr/bin/env python3
"""Draws columns of a result over their time into a PNG: plot.py RESULT PNG COLUMN... A column is a name, or its number. Columns of one unit and one
time share an axis.

    PYTHONPATH=host/python host/examples/plot.py target/host/sample-columns.mf4 plot.png rack.0.02 rack.0.07 rack.0.10
"""
import sys

import sitaungo


def chosen(file, word):
    """By name; a word that is no name and has digits only is a number."""
    by_number = not file.numbers(word) and word.isascii() and word.isdigit()
    return file.column(int(word) if by_number else word)


def values_of(column):
    """Physical values and the axis they belong to; raw ones, and said so, where the conversion is not applied."""
    try:
        return column.values(physical=True), column.unit or "no unit"
    except sitaungo.NotApplied as why:
        return column.values(), "raw, %s not applied" % why.conversion


def time_of(column):
    """Its time, or the records' numbers, and what they are."""
    if column.time(0, 0) is None:
        return range(len(column)), "record"
    about = column.about if column.about.kind == "time" else column.master.about
    return column.time(), "%s (%s)" % (about.name or "time", about.unit or "no unit")


def draw(columns, path):
    import matplotlib

    matplotlib.use("Agg")
    from matplotlib import pyplot

    axes = {}
    for column in columns:
        (time, below), (values, beside) = time_of(column), values_of(column)
        if values.dtype == object:
            raise sitaungo.Undecoded("column %d %r has no numbers" % (column.number, column.name))
        axes.setdefault((below, beside), []).append((time, values, column.name or "column %d" % column.number))
    figure, places = pyplot.subplots(len(axes), squeeze=False, figsize=(10, 1 + 2.5 * len(axes)), constrained_layout=True)
    for ((below, beside), lines), place in zip(axes.items(), places[:, 0]):
        for time, values, name in lines:
            place.plot(time, values, linewidth=0.8, label=name)
        place.set(xlabel=below, ylabel=beside)
        place.legend(loc="upper right")
    figure.savefig(path, format="png")


def main():
    if len(sys.argv) < 4:
        print("usage: plot.py RESULT PNG COLUMN...", file=sys.stderr)
        return 1
    try:
        with sitaungo.ColumnFile(sys.argv[1]) as file:
            draw([chosen(file, word) for word in sys.argv[3:]], sys.argv[2])
    except (sitaungo.Error, ImportError, OSError) as why:
        print("plot.py: %s" % why, file=sys.stderr)
        return 1
    return 0


if __name__ == "__main__":
    sys.exit(main())
