"""Tests of what isn't proved: the door, the commands, and what people see of scripts and answers."""
