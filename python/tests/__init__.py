"""Tests of the package and of the command: tools/python-check runs them all."""
