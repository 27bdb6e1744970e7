"""Reports that scripts put together: from other texts of the program, and from what a solver found."""
