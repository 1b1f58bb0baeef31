"""The cases that make_cases.py writes, by what they show."""
