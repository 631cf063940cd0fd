"""What the commands of the folder above do, each in the module of its name, and what these share."""
