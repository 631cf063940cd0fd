"""Tests of what users have: the program, the library, the tools, the plugin, a release and the pages."""
