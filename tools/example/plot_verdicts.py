"""Draws a column of a recording, where a formula holds, and its margin, with matplotlib.

    PYTHONPATH=tools python3 tools/example/plot_verdicts.py RECORDING COLUMN FORMULA PICTURE
"""
import csv
import sys

import matplotlib

matplotlib.use("Agg")
import matplotlib.pyplot as plot
import stl_bench

recording, column, formula, picture = sys.argv[1:]
with open(recording, newline="") as file:
    head, *rows = [row for row in csv.reader(file) if row]
at = [field.split(":")[0] for field in head].index(column)
verdicts = stl_bench.check(formula, recording).spans
margins = stl_bench.robust(formula, recording)

figure, (signal, band, margin) = plot.subplots(3, sharex=True, height_ratios=[3, 1, 2], figsize=(8, 5), layout="constrained")
style = "steps-post" if ":step" in head[at] else "default"
signal.plot([float(row[0]) for row in rows], [float(row[at]) for row in rows], drawstyle=style)
signal.set_ylabel(column)
for span in verdicts:
    band.axvspan(float(span.begin), float(span.end), color="#8fc1e3" if span.value else "#e08a2e")
band.set(ylabel="holds", yticks=[])
for span in margins:
    margin.plot([float(span.begin), float(span.end)], [float(value) for value in span.value], color="#1f5fa8")
margin.axhline(0, color="#888888", linewidth=0.5)
margin.set(ylabel="margin", xlabel="time")
figure.suptitle(formula, fontsize="small")
figure.savefig(picture)
