"""Splits a file into words, line by line, and counts them: the least that any reader does."""
import sys

count = 0
with open(sys.argv[1], "rb") as file:
    for line in file:
        count += len(line.split())
print(count)
