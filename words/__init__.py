"""The texts of the program, and what is made of them."""
