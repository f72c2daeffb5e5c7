"""Tests of the package apl over the built program: that which APL names, else crates/apl/out/apl.

    APL=/usr/local/bin/apl python3 -m pytest share/python        # or, without pytest:
    cd share/python && APL=/usr/local/bin/apl python3 -m unittest
"""
