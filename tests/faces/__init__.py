"""What page, shell and adapter say of one state, compared with each other and with what the core does."""
