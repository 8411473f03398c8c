"""What a new user tries of an installed package: `packages/inside.py` runs it."""
