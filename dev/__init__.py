"""What checks and writes the repository itself."""
