"""What is measured, and by what."""
