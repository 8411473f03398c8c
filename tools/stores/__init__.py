"""The files of stores, read and written by SQLite as Python has it: another program than the one
that is tested.

They share no code with the subscriber.
"""
