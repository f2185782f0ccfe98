"""The history of a battle: its turns, the effects of edits, and searches for conditions."""
