"""`python3 -m pgsub_connect`."""

from .cli import run

if __name__ == "__main__":
    run()
