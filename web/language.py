#!/usr/bin/env python3
"""Prints what the page needs to read programs and presets, as JSON: the tables of the parsers that the companions have, with the shifts and the
reductions of each state, and the words for what could stand somewhere. usage: language.py"""
import json
import sys
from pathlib import Path

sys.path.insert(0, str(Path(__file__).resolve().parent.parent / "tools"))
from ctd_program import State, states
from ctd_refusals import GROUPS, ORDER, SINGLE, preset_states


def rows(table: list[State]) -> list[list[dict]]:
    return [[state.shifts, {symbol: [one.symbol, one.length] for symbol, one in state.reductions.items()}] for state in table]


groups = [[title, sorted(tokens)] for title, tokens in GROUPS]
json.dump({"program": rows(states()), "presets": rows(preset_states()), "groups": groups, "single": SINGLE, "order": ORDER}, sys.stdout)
