"""The parts of tools/terminal, which runs a form in a terminal."""
