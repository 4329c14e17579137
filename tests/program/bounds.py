#!/usr/bin/env python3
"""Runs `asn_tool` on inputs whose values are large, in an address space of 512 MB or in a few seconds of a processor.

usage: tests/program/bounds.py PROGRAM      a built asn_tool

A message of 102 octets has three million fields. A type of one line has no value with fewer than 3,600,000,000
elements. A line of 600 KB of JSON is a value of 13,000,000 entries. Each has a bound that the help of the program
states, and `--budget` raises the bound. Messages of 64 KB have 2,000,000,000 parts without units. bounds.txt has the cases.
"""
from run import script

script(__doc__, "bounds.txt")
