"""What makes the libraries, an installation and a release."""
