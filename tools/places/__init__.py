"""What a user asks of a tree file, a world script and a trace: where, which, and what would be right.

These modules prove nothing and decide nothing. The proved program reads the files; they read the same files once
more with places, and tell what they find only where it is what the program said.
"""
