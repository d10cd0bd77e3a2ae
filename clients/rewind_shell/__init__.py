"""The shell: what a person types around the commands of `rewind`."""
