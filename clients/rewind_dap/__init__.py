"""A Debug Adapter Protocol server over the command protocol of Rewind."""
