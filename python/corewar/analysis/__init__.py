"""Describes battles: what a turn did, why a warrior died, how a cell got its value, and what a lone warrior does."""
