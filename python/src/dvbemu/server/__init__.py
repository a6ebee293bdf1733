"""The server of `dvbemu serve`, and what runs beside it."""
