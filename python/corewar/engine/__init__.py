"""The only place that reaches the machine: the proved library for C, by cffi."""
