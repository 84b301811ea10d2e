"""The tests: `python3 -m unittest discover -s euclid/tests -t .`"""
