"""A plain model of the debugger: a second opinion, written from docs/LANGUAGE.md, docs/STEPS.md and docs/COMMANDS.md.

It trusts that a source is accepted, keeps no state but the events that were taken, and takes a step back by taking the
others again from the start. So it is slow, and short enough to be read."""
