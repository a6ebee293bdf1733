"""What sections say, in words: tables, descriptors, texts, and the fields that filters ask."""
