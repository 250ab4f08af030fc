"""The commands, a module each, and what they share: options, signals, exit statuses, completion."""
