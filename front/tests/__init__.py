"""Tests of the front end: `python3 -m unittest discover -t . -s front/tests`, run by front/check."""
