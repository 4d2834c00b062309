"""Schedules of collectives by published algorithms, in addition to those of `goal gen`. Nothing of it is proved."""
