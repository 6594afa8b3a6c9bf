#!/usr/bin/env python3
"""Writes the raw calls of the second case in their text form: a month in which worn sheaves chattered, and a gearbox did not.

    python3 month.py | station write - -o month.calls
"""
import datetime

START = datetime.datetime(2026, 1, 5, 8, 0)
SHEAVES = [f"interface(tower-{tower},sheave-train-{side})" for tower in (4, 5, 7) for side in ("up", "down")]
GEARBOX = "interface(drive,gearbox)"


def call(minutes, words):
    print(f"{START + datetime.timedelta(minutes=minutes):%Y-%m-%d %H:%M} {words}")


def alarm(kind, severity, cause, affected):
    return f"type={kind} severity={severity} cause=other:ropeway.{cause} object={affected}"


def sheave_day(day):
    """The vibration sensors of worn sheaves: each report is folded into the alarm that is active."""
    reports = 18 + day
    for report in range(reports):
        for place, sheaves in enumerate(SHEAVES[:2 + day // 7]):
            severity = "major" if day > 20 else "minor"
            words = alarm("line.sheave", severity, "sheave-wear", sheaves)
            call(day * 1440 + report * 12 + place, f'raise id=S-{day:02}-{report:02}-{place} {words} text="vibration {5 + day / 10:.1f} mm/s"')


def main():
    print("# The raw calls of January 2026.")
    print("limits active=32 history=128 audit=16")
    for day in range(28):
        sheave_day(day)
        if day % 9 == 4:
            call(day * 1440 + 480, f'raise id=G-{day:02} {alarm("drive.gearbox", "warning", "gearbox-oil", GEARBOX)} text="oil 71 C"')
            call(day * 1440 + 500, f"clear type=drive.gearbox cause=other:ropeway.gearbox-oil object={GEARBOX}")
        if day % 7 == 6:
            call(day * 1440 + 540, f"clear type=line.sheave cause=other:ropeway.sheave-wear object={SHEAVES[1]}")
    print("counts")
    print("summary")


if __name__ == "__main__":
    main()
