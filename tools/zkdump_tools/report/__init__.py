"""The parts of zkreport.py."""
