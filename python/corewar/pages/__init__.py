"""Pages for a browser: the built site with a fight inside, and indexes from templates that escape every text."""
