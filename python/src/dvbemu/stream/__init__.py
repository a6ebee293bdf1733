"""Transport streams: packets, their clock, sections and tables, read and made (ISO/IEC 13818-1, and for tables ETSI EN 300 468)."""
