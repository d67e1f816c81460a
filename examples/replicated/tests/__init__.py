"""Tests of the parts that need no etcd: python3 -m unittest discover -s examples/replicated/tests -t examples/replicated"""
