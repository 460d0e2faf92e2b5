"""Writes oven.csv and oven_fast.csv as a logger does: an oven is heated to 60 degrees, slowly and too fast. Needs pandas."""
import pandas

for name, step in [("oven", 0.75), ("oven_fast", 1.25)]:
    rising = [20 + step * i for i in range(int(40 / step) + 1)]
    temperature = ([20.0] * 4 + rising + [60.0] * 8)[:48]
    table = pandas.DataFrame({
        "timestamp": pandas.date_range("2026-03-02 10:00:00", periods=len(temperature), freq="500ms"),
        "Temperature (C)": temperature,
        "Heater": [int(t < 60) for t in temperature],
    })
    table["One second before"] = table["Temperature (C)"].shift(2).bfill()
    table.to_csv(f"{name}.csv", index=False)
