"""Pages that show what was planned or driven."""
