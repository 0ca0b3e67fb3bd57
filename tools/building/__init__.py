"""What tools/build.py is made of."""
