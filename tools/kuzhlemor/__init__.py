"""The workbench: images of the ring processor written as text, shown, and asked about."""
