"""What the commands beside this folder are made of: Python of the standard library, in 3.9 or later."""
