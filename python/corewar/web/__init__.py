"""The site, served to this machine with the sources of a folder."""
