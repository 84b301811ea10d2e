"""The commands, a module each: `HELP`, `arguments`, `run`."""
