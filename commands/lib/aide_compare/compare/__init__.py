"""Two databases made ready, the program run over them, and what the run is kept as."""
