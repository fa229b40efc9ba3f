"""What `./chpc` does before the proved program answers: it looks at the words, and proves and builds the program."""
