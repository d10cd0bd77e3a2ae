"""What builds, releases and measures the program, and what checks the documents."""
