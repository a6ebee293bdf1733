"""The commands of `dvbemu`, a module each."""
