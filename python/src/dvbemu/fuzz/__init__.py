"""`dvbemu fuzz`: streams that nobody would send, before receivers as they are."""
