"""The debugger in a web page: how it is made."""
