"""The debugger for people: commands over a battle in time, at a prompt or from a pipe."""
