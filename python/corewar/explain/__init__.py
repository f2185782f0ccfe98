"""Explains errors, lists what pMARS reads differently, and fixes sources."""
