"""What the scripts of bench/, tests/ and tools/ share: packets, captures, the program, and sockets on loopback.

A script imports it by

    sys.path.insert(0, str(Path(__file__).resolve().parent.parent / 'tools'))

and tests/model does without: it is written from the definitions, and shares nothing with what it is compared with.
"""
