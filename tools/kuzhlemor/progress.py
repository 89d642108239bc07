"""How far a long work is, on standard error: once a second, and nothing within the first."""
import sys
import time


class Progress:
    """On a terminal one line, written again and again."""

    def __init__(self) -> None:
        self._said_at = time.monotonic()
        self._is_terminal = sys.stderr is not None and sys.stderr.isatty()

    def say(self, text: str) -> None:
        if sys.stderr is None or time.monotonic() - self._said_at < 1:
            return
        self._said_at = time.monotonic()
        text = f"kuzhlemor: {text}"
        self._write(f"\r{text:<70}" if self._is_terminal else f"{text}\n")

    def end(self) -> None:
        if self._is_terminal:
            self._write(f"\r{'':70}\r")

    @staticmethod
    def _write(text: str) -> None:
        print(text, end="", file=sys.stderr, flush=True)
