"""Contests of many warriors: matches that are run here or on a cluster, stored in a file, and added up."""
