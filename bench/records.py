"""Reads a CSV with names in its first line: a dict for each row, without an entry where a cell is empty."""
import csv


def number_or_words(cell):
    return int(cell) if cell.isdigit() else cell


def filled(row):
    return {name: number_or_words(cell) for name, cell in row.items() if cell}


def read(path):
    with open(path, newline="") as lines:
        return [filled(row) for row in csv.DictReader(lines)]
