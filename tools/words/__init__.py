"""The words of the program, as its table of commands has them, and the texts that are made of them."""
